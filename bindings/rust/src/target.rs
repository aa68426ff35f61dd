//! What names hold.

use crate::answer::{KIND_BROKEN, KIND_LINK, KIND_NONE, KIND_OBJECT};
use crate::{NameNumber, ObjectNumber};

/// An object, or a symbolic link to a name.
#[derive(Clone, Copy, Debug, PartialEq, Eq, Hash)]
pub enum Target {
    /// An object.
    Object(ObjectNumber),
    /// A link to a name.
    Symbolic(NameNumber),
}

impl Target {
    /// The object, or `None` of a link.
    pub fn object(self) -> Option<ObjectNumber> {
        match self {
            Target::Object(object) => Some(object),
            Target::Symbolic(_) => None,
        }
    }

    /// The name that the link leads to, or `None` of an object.
    pub fn link(self) -> Option<NameNumber> {
        match self {
            Target::Object(_) => None,
            Target::Symbolic(name) => Some(name),
        }
    }

    /// Its kind and its number, as the calls have them.
    pub(crate) fn parts(self) -> (u64, u64) {
        match self {
            Target::Object(object) => (KIND_OBJECT, object.get()),
            Target::Symbolic(name) => (KIND_LINK, name.get()),
        }
    }
}

impl From<ObjectNumber> for Target {
    fn from(object: ObjectNumber) -> Target {
        Target::Object(object)
    }
}

/// What may be loaded as a loose value.
#[derive(Clone, Copy, Debug, PartialEq, Eq, Hash)]
pub enum Loose {
    /// No loose value.
    None,
    /// A target.
    Target(Target),
    /// A value that cannot be read.
    Broken,
}

impl Loose {
    pub(crate) fn parts(self) -> (u64, u64) {
        match self {
            Loose::None => (KIND_NONE, 0),
            Loose::Target(target) => target.parts(),
            Loose::Broken => (KIND_BROKEN, 0),
        }
    }
}

impl From<Target> for Loose {
    fn from(target: Target) -> Loose {
        Loose::Target(target)
    }
}

impl From<Option<Target>> for Loose {
    fn from(target: Option<Target>) -> Loose {
        target.map_or(Loose::None, Loose::Target)
    }
}
