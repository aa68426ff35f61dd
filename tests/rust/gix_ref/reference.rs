//! A reference that was found, whether loose or packed.

use crate::{file::loose, packed, FullName, Target};

#[derive(Debug, Clone)]
pub struct Reference {
    pub name: FullName,
    pub target: Target,
}

impl From<loose::Reference> for Reference {
    fn from(found: loose::Reference) -> Self {
        Reference { name: found.name, target: found.target }
    }
}

impl From<packed::Reference> for Reference {
    fn from(found: packed::Reference) -> Self {
        Reference { name: found.name, target: Target::Object(found.target) }
    }
}
