//! Stands in for gix-object: byte strings (here text, since the scope's names are ASCII), and the finder of objects, which is
//! there for peeling alone and so never asked.

pub mod bstr {
    pub type BString = String;
}

pub trait Find {}

pub mod find {
    pub struct Never;

    impl super::Find for Never {}
}
