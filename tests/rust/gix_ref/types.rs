//! Targets, as gix-ref's lib.rs declares them.

use crate::{FullName, FullNameRef};
use gix_hash::{oid, ObjectId};

#[derive(PartialEq, Eq, Debug, Hash, Ord, PartialOrd, Clone, Copy)]
pub enum Kind {
    Object,
    Symbolic,
}

#[derive(PartialEq, Eq, Debug, Hash, Ord, PartialOrd, Clone)]
pub enum Target {
    Object(ObjectId),
    Symbolic(FullName),
}

#[derive(PartialEq, Eq, Debug, Hash, Ord, PartialOrd, Clone, Copy)]
pub enum TargetRef<'a> {
    Object(&'a oid),
    Symbolic(&'a FullNameRef),
}
