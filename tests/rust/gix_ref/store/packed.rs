//! The packed table: a file `packed-refs` as gitrepository-layout(5) and git-pack-refs(1) have it, a line for each entry, its id
//! and its name, sorted by name. A transaction holds the file's lock from its making to its end. It writes once, at commit, and
//! only if it changes something.

use crate::transaction::{Change, RefEdit};
use crate::{FullName, FullNameRef, Target};
use gix_hash::ObjectId;
use std::collections::BTreeMap;
use std::io::Write;
use std::path::Path;

pub struct Reference {
    pub name: FullName,
    pub target: ObjectId,
}

/// The entries of the table, as they were when it was opened.
#[derive(Debug)]
pub struct Buffer(BTreeMap<String, ObjectId>);

pub mod buffer {
    pub mod open {
        #[derive(Debug)]
        pub struct Error(pub std::io::Error);
    }
}

pub mod find {
    #[derive(Debug)]
    pub enum Error {}
}

impl Buffer {
    /// Reads the table. A file that is not there is no table; one without entries is an empty table.
    pub fn open(path: &Path) -> Result<Option<Buffer>, buffer::open::Error> {
        match std::fs::read_to_string(path) {
            Ok(text) => Ok(Some(Buffer(parse(&text)))),
            Err(err) if err.kind() == std::io::ErrorKind::NotFound => Ok(None),
            Err(err) => Err(buffer::open::Error(err)),
        }
    }

    pub fn try_find(&self, name: &FullNameRef) -> Result<Option<Reference>, find::Error> {
        Ok(self.0.get(name.as_bstr()).map(|id| Reference { name: name.to_owned(), target: *id }))
    }
}

/// The entries in the text of a table. Lines that begin with `#` say how it was made, lines with `^` hold peeled ids.
pub fn parse(text: &str) -> BTreeMap<String, ObjectId> {
    let entries = text.lines().filter_map(|line| line.split_once(' '));
    entries.filter_map(|(id, name)| Some((name.to_owned(), ObjectId::from_hex(id)?))).collect()
}

/// The text of a table with these entries.
pub fn text<'a>(entries: impl IntoIterator<Item = (&'a String, &'a ObjectId)>) -> String {
    let mut text = String::from("# pack-refs with: sorted\n");
    for (name, id) in entries {
        text.push_str(&format!("{id} {name}\n"));
    }
    text
}

pub struct Transaction {
    buffer: Option<Buffer>,
    edits: Vec<RefEdit>,
    lock: gix_lock::File,
}

impl Transaction {
    pub(super) fn open(
        path: &Path,
        buffer: Option<Buffer>,
        fail: gix_lock::acquire::Fail,
    ) -> Result<Self, gix_lock::acquire::Error> {
        let lock = gix_lock::File::acquire_to_update_resource(path, fail, None)?;
        Ok(Transaction { buffer, edits: Vec::new(), lock })
    }

    pub fn buffer(&self) -> Option<&Buffer> {
        self.buffer.as_ref()
    }

    /// Takes the edits, but for deletions of what is not in the table.
    pub fn prepare(
        mut self,
        edits: &mut dyn Iterator<Item = RefEdit>,
        _: &dyn gix_object::Find,
    ) -> Result<Self, transaction::prepare::Error> {
        let held = |edit: &RefEdit| self.buffer.as_ref().is_some_and(|table| table.0.contains_key(edit.name.as_bstr()));
        self.edits = edits.filter(|edit| matches!(edit.change, Change::Update { .. }) || held(edit)).collect();
        Ok(self)
    }

    /// Writes the table with all edits made in it, if there are any.
    pub fn commit(mut self) -> Result<(), transaction::commit::Error> {
        if self.edits.is_empty() {
            return Ok(());
        }
        let mut entries = self.buffer.map_or_else(BTreeMap::new, |table| table.0);
        for edit in self.edits {
            match edit.change {
                Change::Update { new: Target::Object(id), .. } => entries.insert(edit.name.as_bstr().clone(), id),
                Change::Update { .. } => None,
                Change::Delete { .. } => entries.remove(edit.name.as_bstr()),
            };
        }
        self.lock.with_mut(|file| file.write_all(text(&entries).as_bytes())).map_err(transaction::commit::Error)?;
        let lock = self.lock.close().map_err(transaction::commit::Error)?;
        lock.commit().map(drop).map_err(|err| transaction::commit::Error(err.error))
    }
}

pub mod transaction {
    use super::{Buffer, Transaction};
    use std::path::PathBuf;

    pub mod prepare {
        #[derive(Debug)]
        pub enum Error {}
    }

    pub mod commit {
        #[derive(Debug)]
        pub struct Error(pub std::io::Error);
    }

    /// A table that was opened for reading, with the place that it came from.
    pub struct Opened {
        pub path: PathBuf,
        pub buffer: Buffer,
    }

    pub(crate) fn buffer_into_transaction(
        opened: Opened,
        fail: gix_lock::acquire::Fail,
        _precompose_unicode: bool,
        _namespace: Option<()>,
    ) -> Result<Transaction, gix_lock::acquire::Error> {
        Transaction::open(&opened.path, Some(opened.buffer), fail)
    }
}
