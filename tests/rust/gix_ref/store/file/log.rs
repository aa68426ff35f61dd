//! Logs: a file for each name, a line for each change. When a log is made follows git-config(1), core.logAllRefUpdates.

use super::Store;
use crate::FullNameRef;
use counted::ledger::{self, Write as Made};
use gix_hash::ObjectId;
use std::io::Write;
use std::path::Path;

/// When a missing log is made.
#[derive(Debug, Clone, Copy, PartialEq, Eq)]
pub enum WriteReflog {
    /// For every name. This is how gix-ref's own comment on its setting reads.
    AlwaysForAll,
    /// For HEAD and every name beneath `refs/`: the manual's `always`.
    Always,
    /// For HEAD, branches, remote branches and notes: the manual's `true`.
    Normal,
    /// Never. A log that is there gets no line either.
    Disable,
}

pub mod create_or_update {
    #[derive(Debug)]
    pub enum Error {
        MissingCommitter,
        Io(std::io::Error),
    }

    impl From<std::io::Error> for Error {
        fn from(source: std::io::Error) -> Self {
            Error::Io(source)
        }
    }
}

impl WriteReflog {
    fn makes_log(self, name: &str) -> bool {
        let under = |prefixes: &[&str]| name == "HEAD" || prefixes.iter().any(|prefix| name.starts_with(prefix));
        match self {
            WriteReflog::AlwaysForAll => true,
            WriteReflog::Always => under(&["refs/"]),
            WriteReflog::Normal => under(&["refs/heads/", "refs/remotes/", "refs/notes/"]),
            WriteReflog::Disable => false,
        }
    }
}

impl Store {
    /// Adds a line to a name's log, one write, if there is a log or one is to be made.
    pub(super) fn reflog_create_or_append(
        &self,
        name: &FullNameRef,
        previous: Option<ObjectId>,
        new: &ObjectId,
        committer: Option<gix_actor::SignatureRef<'_>>,
        message: &str,
        force: bool,
    ) -> Result<(), create_or_update::Error> {
        let (base, relative) = self.reflog_base_and_relative_path(name);
        let path = base.join(relative);
        let makes = force || self.write_reflog.makes_log(name.as_bstr());
        if self.write_reflog == WriteReflog::Disable || !(makes || path.is_file()) {
            return Ok(());
        }
        ledger::ask()?;
        let committer = committer.ok_or(create_or_update::Error::MissingCommitter)?;
        let previous = previous.unwrap_or_else(|| new.kind().null());
        let line = line(&previous, new, committer.name, message);
        ledger::note_try(&path);
        append(&path, &line)?;
        ledger::note(Made::Append(path, line));
        Ok(())
    }
}

/// A line of a log. Times are not in the scope, and all 0.
pub fn line(previous: &ObjectId, new: &ObjectId, committer: &str, message: &str) -> String {
    format!("{previous} {new} {committer} <{committer}> 0 +0000\t{message}\n")
}

/// Adds to the end of a file, which is made if need be. Empty directories that stand in its place give way.
fn append(path: &Path, line: &str) -> std::io::Result<()> {
    if let Some(dir) = path.parent() {
        std::fs::create_dir_all(dir)?;
    }
    if path.is_dir() {
        gix_tempfile::remove_dir::empty_depth_first(path.to_owned())?;
    }
    let mut file = std::fs::OpenOptions::new().append(true).create(true).open(path)?;
    file.write_all(line.as_bytes())
}
