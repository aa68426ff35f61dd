//! The packed table, as the store of files reaches it.

use super::Store;
use crate::packed::{self, transaction::Opened};
use std::path::PathBuf;

pub mod transaction {
    pub enum Error {
        BufferOpen(crate::packed::buffer::open::Error),
        TransactionLock(gix_lock::acquire::Error),
    }
}

impl Store {
    pub(super) fn packed_refs_path(&self) -> PathBuf {
        self.git_dir.join("packed-refs")
    }

    pub(super) fn packed_refs_lock_path(&self) -> PathBuf {
        gix_lock::lock_path(&self.packed_refs_path())
    }

    pub(super) fn assure_packed_refs_uptodate(&self) -> Result<Option<Opened>, packed::buffer::open::Error> {
        let path = self.packed_refs_path();
        Ok(packed::Buffer::open(&path)?.map(|buffer| Opened { path, buffer }))
    }

    pub(super) fn packed_transaction(&self, fail: gix_lock::acquire::Fail) -> Result<packed::Transaction, transaction::Error> {
        let buffer = packed::Buffer::open(&self.packed_refs_path()).map_err(transaction::Error::BufferOpen)?;
        packed::Transaction::open(&self.packed_refs_path(), buffer, fail).map_err(transaction::Error::TransactionLock)
    }

    /// The table is read anew whenever it is asked for, so there is nothing to refresh.
    pub(super) fn force_refresh_packed_buffer(&self) -> Result<(), packed::buffer::open::Error> {
        Ok(())
    }
}
