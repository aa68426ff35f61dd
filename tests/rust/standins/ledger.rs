//! The ledger of a run: which writes were made, in their order, and how many are allowed. Every write of a commit asks it
//! first. A write that is not allowed fails as a full disk would, and nothing of it is done.

use ::std::cell::RefCell;
use ::std::io;
use ::std::path::{Path, PathBuf};

/// A write that was made, by the file that it changed.
#[derive(Debug, Clone, PartialEq, Eq)]
pub enum Write {
    /// A line was added to the end of a file.
    Append(PathBuf, String),
    /// A lock file took the place of the file that it guards.
    Replace(PathBuf, String),
    /// A file was removed.
    Remove(PathBuf),
}

#[derive(Default)]
struct Ledger {
    allowance: u64,
    made: Vec<Write>,
    stopped: bool,
    last_tried: PathBuf,
    last_lock: PathBuf,
}

thread_local! {
    static LEDGER: RefCell<Ledger> = RefCell::default();
}

/// Opens an empty ledger with an allowance of writes.
pub fn open(allowance: u64) {
    LEDGER.with_borrow_mut(|ledger| *ledger = Ledger { allowance, ..Ledger::default() });
}

/// Asks for room for one write more.
pub fn ask() -> io::Result<()> {
    LEDGER.with_borrow_mut(|ledger| {
        if (ledger.made.len() as u64) < ledger.allowance {
            return Ok(());
        }
        ledger.stopped = true;
        Err(io::Error::other("the allowance of writes is used up"))
    })
}

/// Notes a write that was asked for and made.
pub fn note(write: Write) {
    LEDGER.with_borrow_mut(|ledger| ledger.made.push(write));
}

/// Notes which file is to be locked, or which log is to get a line: an error that follows is about that one.
pub fn note_try(path: &Path) {
    LEDGER.with_borrow_mut(|ledger| ledger.last_tried = path.to_owned());
}

/// The file that was to be locked last, or the log that was to get a line.
pub fn last_tried() -> PathBuf {
    LEDGER.with_borrow(|ledger| ledger.last_tried.clone())
}

/// Notes which file was locked last: a panic that follows is about that file.
pub fn note_lock(resource: &Path) {
    LEDGER.with_borrow_mut(|ledger| ledger.last_lock = resource.to_owned());
}

/// The file that was locked last.
pub fn last_lock() -> PathBuf {
    LEDGER.with_borrow(|ledger| ledger.last_lock.clone())
}

/// How many writes were made, and whether one was refused.
pub fn count() -> (usize, bool) {
    LEDGER.with_borrow(|ledger| (ledger.made.len(), ledger.stopped))
}

/// Takes the writes that were made out of the ledger.
pub fn close() -> Vec<Write> {
    LEDGER.with_borrow_mut(|ledger| ::std::mem::take(&mut ledger.made))
}
