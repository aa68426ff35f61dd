//! Loose values: files with an id, or with `ref: ` and a name. Anything else is broken.

use super::Store;
use crate::{FullName, FullNameRef, PartialNameRef, Target};
use gix_hash::ObjectId;

pub struct Reference {
    pub name: FullName,
    pub target: Target,
}

pub mod reference {
    pub mod decode {
        #[derive(Debug)]
        pub struct Error;
    }
}

/// Why nothing was found. Callers here ask only whether something was.
#[derive(Debug)]
pub enum FindError {
    Io(std::io::Error),
    Decode(reference::decode::Error),
    NotFound,
}

impl Reference {
    pub fn try_from_path(name: FullName, text: &[u8], _: gix_hash::Kind) -> Result<Self, reference::decode::Error> {
        let text = std::str::from_utf8(text).map_err(|_| reference::decode::Error)?.trim_end();
        let target = match text.strip_prefix("ref: ") {
            Some(link) => Target::Symbolic(FullName::new(link)),
            None => Target::Object(ObjectId::from_hex(text).ok_or(reference::decode::Error)?),
        };
        Ok(Reference { name, target })
    }
}

impl Store {
    /// The bytes of a loose value. A directory of that name is no value.
    pub(super) fn ref_contents(&self, name: &FullNameRef) -> std::io::Result<Option<Vec<u8>>> {
        let path = self.reference_path(name);
        match std::fs::read(&path) {
            Ok(bytes) => Ok(Some(bytes)),
            Err(err) if err.kind() == std::io::ErrorKind::NotFound || path.is_dir() => Ok(None),
            Err(err) => Err(err),
        }
    }

    /// Finds a loose value by a name that may be partial. A name beneath `refs/` is whole. Another one is tried as it stands,
    /// and then in the places that gitrevisions(7) gives for `<refname>`, in its order. A broken value ends the search.
    pub(super) fn find_existing_inner(
        &self,
        name: &PartialNameRef,
        _packed: Option<&crate::packed::Buffer>,
    ) -> Result<Reference, FindError> {
        let places = if self.exact_names { vec![name.as_bstr().clone()] } else { places(name.as_bstr()) };
        for full in places {
            let full = FullName::new(&full);
            if let Some(text) = self.ref_contents(full.as_ref()).map_err(FindError::Io)? {
                return Reference::try_from_path(full, &text, self.object_hash).map_err(FindError::Decode);
            }
        }
        Err(FindError::NotFound)
    }
}

fn places(name: &str) -> Vec<String> {
    if name.starts_with("refs/") {
        return vec![name.to_owned()];
    }
    vec![
        name.to_owned(),
        format!("refs/{name}"),
        format!("refs/tags/{name}"),
        format!("refs/heads/{name}"),
        format!("refs/remotes/{name}"),
        format!("refs/remotes/{name}/HEAD"),
    ]
}
