//! What the six files see as `std`. It is std, but for the removal of a file, which asks the ledger first.

pub use ::std::*;

pub mod ledger;

pub mod fs {
    pub use ::std::fs::*;

    use crate::ledger::{self, Write};

    /// Removes a file. Removing what is not there, or a directory, fails as it does in std, and is no write.
    pub fn remove_file(path: impl AsRef<::std::path::Path>) -> ::std::io::Result<()> {
        let path = path.as_ref();
        if path.symlink_metadata().is_ok_and(|found| !found.is_dir()) {
            ledger::ask()?;
            ::std::fs::remove_file(path)?;
            ledger::note(Write::Remove(path.to_owned()));
            return Ok(());
        }
        ::std::fs::remove_file(path)
    }
}
