//! The store of files: one directory, as gitrepository-layout(5) has it. A loose value is a file named by its name, a log is
//! a file beneath `logs/`, and the packed table is `packed-refs`.

use crate::FullNameRef;
use std::borrow::Cow;
use std::path::{Path, PathBuf};

pub mod log;
pub mod loose;
pub mod packed;
mod rows;

#[path = "../../../../target/rust/source/src/store/file/transaction/mod.rs"]
pub mod transaction;

pub use rows::Row;

#[derive(Debug)]
pub struct Store {
    git_dir: PathBuf,
    write_reflog: log::WriteReflog,
    object_hash: gix_hash::Kind,
    precompose_unicode: bool,
    namespace: Option<()>,
    exact_names: bool,
}

pub struct Transaction<'s, 'p> {
    store: &'s Store,
    packed_transaction: Option<crate::packed::Transaction>,
    updates: Option<Vec<transaction::Edit>>,
    packed_refs: transaction::PackedRefs<'p>,
}

impl Store {
    pub fn at(git_dir: PathBuf, write_reflog: log::WriteReflog) -> Self {
        let object_hash = gix_hash::Kind::Sha1;
        Store { git_dir, write_reflog, object_hash, precompose_unicode: false, namespace: None, exact_names: false }
    }

    /// The same store, whose finder takes a name as it stands, and for none that it may be short for.
    pub fn with_exact_names(self) -> Self {
        Store { exact_names: true, ..self }
    }

    /// Windows device names are not in the scope, and allowed.
    fn check_windows_device_name(&self, _: &FullNameRef) -> std::io::Result<()> {
        Ok(())
    }

    fn reference_path_with_base<'a>(&'a self, name: &'a FullNameRef) -> (Cow<'a, Path>, Cow<'a, Path>) {
        (Cow::Borrowed(&self.git_dir), Cow::Borrowed(Path::new(name.as_bstr())))
    }

    fn reference_path(&self, name: &FullNameRef) -> PathBuf {
        self.git_dir.join(name.as_bstr())
    }

    fn reflog_base_and_relative_path<'a>(&self, name: &'a FullNameRef) -> (PathBuf, &'a Path) {
        (self.git_dir.join("logs"), Path::new(name.as_bstr()))
    }
}
