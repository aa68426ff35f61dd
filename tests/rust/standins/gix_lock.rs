//! Stands in for gix-lock: a lock on `NAME` is the file `NAME.lock`, made only if it is not there. It goes when its holder does,
//! with the directories that are empty then, or takes the place of what it guards. Locks fail at once, as in the scope.

use counted::ledger::{self, Write};
use std::fs;
use std::io;
use std::path::{Path, PathBuf};

pub mod acquire {
    /// How to fail: at once, which is all that the scope knows.
    #[derive(Clone, Copy)]
    pub enum Fail {
        Immediately,
    }

    #[derive(Debug)]
    pub enum Error {
        Io(std::io::Error),
        PermanentlyLocked,
    }
}

pub mod commit {
    /// The lock that could not be committed is handed back.
    pub struct Error<T> {
        pub error: std::io::Error,
        pub instance: T,
    }
}

/// A lock that is held, with nothing more to write into it.
pub struct Marker {
    resource: PathBuf,
    boundary: Option<PathBuf>,
    held: bool,
}

/// A lock that is held, and open for writing.
pub struct File {
    file: fs::File,
    marker: Marker,
}

impl Marker {
    pub fn acquire_to_hold_resource(
        at: impl AsRef<Path>,
        _: acquire::Fail,
        boundary: Option<PathBuf>,
    ) -> Result<Marker, acquire::Error> {
        acquire(at.as_ref(), boundary).map(|file| file.marker)
    }

    pub fn resource_path(&self) -> PathBuf {
        self.resource.clone()
    }

    /// Moves the lock file to the place of the file that it guards: one write.
    pub fn commit(mut self) -> Result<PathBuf, commit::Error<Marker>> {
        match self.take_place() {
            Ok(()) => Ok(self.resource.clone()),
            Err(error) => Err(commit::Error { error, instance: self }),
        }
    }

    fn take_place(&mut self) -> io::Result<()> {
        let lock = lock_path(&self.resource);
        ledger::ask()?;
        let text = fs::read_to_string(&lock)?;
        fs::rename(lock, &self.resource)?;
        ledger::note(Write::Replace(self.resource.clone(), text));
        self.held = false;
        Ok(())
    }
}

impl File {
    pub fn acquire_to_update_resource(
        at: impl AsRef<Path>,
        _: acquire::Fail,
        boundary: Option<PathBuf>,
    ) -> Result<File, acquire::Error> {
        acquire(at.as_ref(), boundary)
    }

    pub fn with_mut<T>(&mut self, write: impl FnOnce(&mut fs::File) -> io::Result<T>) -> io::Result<T> {
        write(&mut self.file)
    }

    pub fn close(self) -> io::Result<Marker> {
        Ok(self.marker)
    }
}

impl Drop for Marker {
    fn drop(&mut self) {
        if self.held && fs::remove_file(lock_path(&self.resource)).is_ok() {
            if let (Some(boundary), Some(dir)) = (&self.boundary, self.resource.parent()) {
                gix_tempfile::remove_dir::empty_upward_until_boundary(dir, boundary).ok();
            }
        }
    }
}

impl std::fmt::Debug for Marker {
    fn fmt(&self, f: &mut std::fmt::Formatter<'_>) -> std::fmt::Result {
        f.write_str("Marker")
    }
}

/// The lock file of a file.
pub fn lock_path(resource: &Path) -> PathBuf {
    let mut path = resource.as_os_str().to_owned();
    path.push(".lock");
    path.into()
}

fn acquire(resource: &Path, boundary: Option<PathBuf>) -> Result<File, acquire::Error> {
    let lock = lock_path(resource);
    ledger::note_try(resource);
    if let (Some(_), Some(dir)) = (&boundary, lock.parent()) {
        fs::create_dir_all(dir).map_err(acquire::Error::Io)?;
    }
    let file = fs::OpenOptions::new().write(true).create_new(true).open(lock).map_err(|err| match err.kind() {
        io::ErrorKind::AlreadyExists => acquire::Error::PermanentlyLocked,
        _ => acquire::Error::Io(err),
    })?;
    ledger::note_lock(resource);
    Ok(File { file, marker: Marker { resource: resource.to_owned(), boundary, held: true } })
}
