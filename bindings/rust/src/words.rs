//! Refusals, targets, places and outcomes in words.

use crate::{Found, NameNumber, Outcome, Place, Refusal, Target, View};
use std::fmt::{Display, Formatter, Result};

/// Something in words, with names by their bytes. Made by [`Refusal::in_words`], [`Target::in_words`] and [`Found::in_words`].
#[derive(Clone, Copy, Debug)]
pub struct InWords<'s, T> {
    what: T,
    store: View<'s>,
}

impl Refusal {
    /// In words with the store's names: "refs/heads/aisle: expected object 9, found a link to HEAD".
    pub fn in_words<'s>(self, store: impl Into<View<'s>>) -> InWords<'s, Refusal> {
        InWords { what: self, store: store.into() }
    }
}

impl Target {
    /// In words with the store's names: "object 9", "a link to HEAD".
    pub fn in_words<'s>(self, store: impl Into<View<'s>>) -> InWords<'s, Target> {
        InWords { what: self, store: store.into() }
    }
}

impl Found {
    /// In words with the store's names: "a link to HEAD, loose", "object 9, packed", "absent".
    pub fn in_words<'s>(self, store: impl Into<View<'s>>) -> InWords<'s, Found> {
        InWords { what: self, store: store.into() }
    }
}

impl Display for InWords<'_, Refusal> {
    fn fmt(&self, f: &mut Formatter<'_>) -> Result {
        Speaker(Some(self.store)).refusal(f, self.what)
    }
}

impl Display for InWords<'_, Target> {
    fn fmt(&self, f: &mut Formatter<'_>) -> Result {
        Speaker(Some(self.store)).target(f, self.what)
    }
}

impl Display for InWords<'_, Found> {
    fn fmt(&self, f: &mut Formatter<'_>) -> Result {
        Speaker(Some(self.store)).found(f, self.what)
    }
}

/// Names by their numbers: "name 1: expected object 9, found a link to name 0".
impl Display for Refusal {
    fn fmt(&self, f: &mut Formatter<'_>) -> Result {
        Speaker(None).refusal(f, *self)
    }
}

/// "object 9", "a link to name 0".
impl Display for Target {
    fn fmt(&self, f: &mut Formatter<'_>) -> Result {
        Speaker(None).target(f, *self)
    }
}

/// "a link to name 0, loose", "object 9, packed", "absent".
impl Display for Found {
    fn fmt(&self, f: &mut Formatter<'_>) -> Result {
        Speaker(None).found(f, *self)
    }
}

/// "loose", "packed", "packed behind a broken loose", "absent", "absent behind a broken loose".
impl Display for Place {
    fn fmt(&self, f: &mut Formatter<'_>) -> Result {
        f.write_str(match self {
            Place::Loose => "loose",
            Place::Packed => "packed",
            Place::PackedBehindBroken => "packed behind a broken loose",
            Place::Absent => "absent",
            Place::AbsentBehindBroken => "absent behind a broken loose",
        })
    }
}

/// "3 writes", or "stopped after 3 writes: the allowance is used up".
impl Display for Outcome {
    fn fmt(&self, f: &mut Formatter<'_>) -> Result {
        let plural = if self.writes() == 1 { "write" } else { "writes" };
        match *self {
            Outcome::AllWritten { writes } => write!(f, "{writes} {plural}"),
            Outcome::NoCommitter { writes } => write!(f, "stopped after {writes} {plural}: a log line has no committer"),
            Outcome::UsedUp { writes } => write!(f, "stopped after {writes} {plural}: the allowance is used up"),
        }
    }
}

/// Names by their bytes where there is a store to ask, else by their numbers.
struct Speaker<'s>(Option<View<'s>>);

impl Speaker<'_> {
    fn name(&self, f: &mut Formatter<'_>, name: NameNumber) -> Result {
        match self.0.and_then(|store| store.name(name).ok()) {
            Some(text) => f.write_str(text),
            None => write!(f, "name {}", name.0),
        }
    }

    fn target(&self, f: &mut Formatter<'_>, target: Target) -> Result {
        match target {
            Target::Object(object) => write!(f, "object {}", object.get()),
            Target::Symbolic(name) => {
                f.write_str("a link to ")?;
                self.name(f, name)
            }
        }
    }

    /// The value and its place; of what is absent, the place alone.
    fn found(&self, f: &mut Formatter<'_>, found: Found) -> Result {
        if let Some(target) = found.target {
            self.target(f, target)?;
            f.write_str(", ")?;
        }
        found.place.fmt(f)
    }

    fn refusal(&self, f: &mut Formatter<'_>, refusal: Refusal) -> Result {
        match refusal {
            Refusal::NotRegistered { number } => write!(f, "name {number}: no name has this number"),
            Refusal::MalformedLine { line } => write!(f, "line {line}: {}", of_nothing(refusal)),
            Refusal::MultipleEdits { name }
            | Refusal::LockAcquire { name }
            | Refusal::DeleteReferenceMustExist { name }
            | Refusal::DeleteMustNotExist { name }
            | Refusal::NameConflict { name }
            | Refusal::MustNotExist { name, .. }
            | Refusal::MustExist { name, .. }
            | Refusal::ReferenceOutOfDate { name, .. } => {
                self.name(f, name)?;
                f.write_str(": ")?;
                self.of_name(f, refusal)
            }
            Refusal::Unexpected { number } => {
                write!(f, "an answer of the archive that this crate does not know, with number {number}")
            }
            _ => f.write_str(of_nothing(refusal)),
        }
    }

    /// What is said behind the name that a refusal is about.
    fn of_name(&self, f: &mut Formatter<'_>, refusal: Refusal) -> Result {
        match refusal {
            Refusal::MustNotExist { actual, new, .. } => {
                f.write_str("expected nothing, found ")?;
                self.target(f, actual)?;
                f.write_str(" where ")?;
                self.target(f, new)?;
                f.write_str(" was to be written")
            }
            Refusal::MustExist { expected, .. } => {
                f.write_str("expected ")?;
                match expected {
                    Some(target) => self.target(f, target)?,
                    None => f.write_str("a value")?,
                }
                f.write_str(", found nothing")
            }
            Refusal::ReferenceOutOfDate { expected, actual, .. } => {
                f.write_str("expected ")?;
                self.target(f, expected)?;
                f.write_str(", found ")?;
                self.target(f, actual)
            }
            _ => f.write_str(of_nothing(refusal)),
        }
    }
}

/// What is said without a target.
fn of_nothing(refusal: Refusal) -> &'static str {
    match refusal {
        Refusal::BadRegion => "the region holds no good store, or the bytes are no good receiver",
        Refusal::Malformed => "an edit list, an object, a committer or a message is malformed",
        Refusal::ReferenceCycle => "links are still followed in a fifth round",
        Refusal::TooManyRows => "the edits come to more than 160 rows",
        Refusal::MultipleEdits { .. } => "two rows have this name",
        Refusal::PackedTransactionAcquire => "the lock of the packed table is foreign",
        Refusal::LockAcquire { .. } => "its lock is foreign, or that of a name that its links lead to",
        Refusal::DeleteReferenceMustExist { .. } => "to be deleted, but nothing is there",
        Refusal::DeleteMustNotExist { .. } => "a delete that expects nothing",
        Refusal::LogFull => "the log has no room for the lines that are due",
        Refusal::WrongState => "a transaction is prepared and must not be, or none is and must be",
        Refusal::BadName => "the bytes are no name",
        Refusal::NamesFull => "256 names are held",
        Refusal::WrongLock => "the lock to be placed is not free, or the lock to be lifted is not foreign",
        Refusal::BadLoad => "this value cannot be loaded there",
        Refusal::NothingThere => "there is no such log line, row or committer",
        Refusal::MalformedRecord => "the settings record is malformed, or a setting is out of bounds",
        Refusal::UnknownVersion => "the settings record has a version that is not known",
        Refusal::NameConflict { .. } => "a name above or beneath it has a loose value, or would get one",
        Refusal::ReceiverFull => "the fragment is longer than the room that is left in the receiver",
        Refusal::MalformedLine { .. } => "this line of the packed table's text is malformed",
        Refusal::TextTooLong => "the buffer is shorter than the packed table's text",
        Refusal::ShortBuffer => "the buffer is shorter than the settings record",
        Refusal::NotRegistered { .. } => "no name has this number",
        Refusal::MustNotExist { .. } | Refusal::MustExist { .. } | Refusal::ReferenceOutOfDate { .. } => {
            "another value is there"
        }
        Refusal::Unexpected { .. } => "an answer of the archive that this crate does not know",
    }
}
