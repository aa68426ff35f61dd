//! Why a call is refused.

use crate::answer::{Answer, KIND_OBJECT};
use crate::{NameNumber, Target};

/// Why a call is refused, with what comes with it. The store is as it was. So is a receiver, unless it was closed: then it is
/// fresh.
///
/// It borrows nothing. [`Display`](std::fmt::Display) speaks of names by their numbers, and [`in_words`](Refusal::in_words) by
/// their bytes, which it looks up in the store. A name keeps its number and its bytes, so the words are the same at any later
/// time, unless the store is started anew.
///
/// ```
/// use dehlbazin::{EditList, ObjectNumber, PackedRefs, PreviousValue, RefEdit, Refusal, Setting, Store, Target};
///
/// let mut region = vec![0; dehlbazin::REGION_SIZE];
/// let mut store = Store::start_in(&mut region, Setting::Normal)?;
/// let aisle = store.add_name("refs/heads/aisle")?;
/// let nine = Target::Object(ObjectNumber::new(9)?);
/// let list = EditList::of([RefEdit::delete(aisle, PreviousValue::MustExistAndMatch(nine))])?;
/// let refusal = store.prepare(&list, PackedRefs::DeletionsOnly).unwrap_err();
/// assert_eq!(refusal, Refusal::DeleteReferenceMustExist { name: aisle });
/// assert_eq!(refusal.number(), 9);
/// assert_eq!(refusal.to_string(), "name 0: to be deleted, but nothing is there");
/// assert_eq!(refusal.in_words(&store).to_string(), "refs/heads/aisle: to be deleted, but nothing is there");
/// # Ok::<(), Refusal>(())
/// ```
#[derive(Clone, Copy, Debug, PartialEq, Eq, Hash)]
#[non_exhaustive]
pub enum Refusal {
    /// 1: the region or the receiver is not a good one, or has another size.
    BadRegion,
    /// 2: an edit list, or a number that no such type holds.
    Malformed,
    /// 3: no name has this number.
    NotRegistered {
        /// The number, with all its bits.
        number: u64,
    },
    /// 4: links are still followed in a fifth round.
    ReferenceCycle,
    /// 5: more than 160 rows, which no list comes to.
    TooManyRows,
    /// 6: two rows have one name.
    MultipleEdits {
        /// It, or of several the least in byte order.
        name: NameNumber,
    },
    /// 7: the lock of the packed table is foreign.
    PackedTransactionAcquire,
    /// 8: a name's lock is foreign.
    LockAcquire {
        /// The name of the edit that led to the locked name.
        name: NameNumber,
    },
    /// 9: a delete that expects something finds nothing.
    DeleteReferenceMustExist {
        /// The name.
        name: NameNumber,
    },
    /// 10: an update that expects nothing finds something else than its target.
    MustNotExist {
        /// The name.
        name: NameNumber,
        /// What is there.
        actual: Target,
        /// What was to be written.
        new: Target,
    },
    /// 11: an update that expects something finds nothing.
    MustExist {
        /// The name.
        name: NameNumber,
        /// What was expected; `None` where any value was.
        expected: Option<Target>,
    },
    /// 12: another value than the expected one is there.
    ReferenceOutOfDate {
        /// The name.
        name: NameNumber,
        /// What was expected.
        expected: Target,
        /// What is there.
        actual: Target,
    },
    /// 13: a delete that expects nothing.
    DeleteMustNotExist {
        /// The name.
        name: NameNumber,
    },
    /// 14: the log has no room for the lines that are due.
    LogFull,
    /// 15: a transaction is prepared and must not be, or the other way round.
    WrongState,
    /// 18: the bytes are no name.
    BadName,
    /// 19: a new name, and 256 are held.
    NamesFull,
    /// 20: placing a lock that is not free, or lifting one that is not foreign.
    WrongLock,
    /// 21: a value that cannot be loaded there.
    BadLoad,
    /// 22: there is no such log line, row or committer.
    NothingThere,
    /// 23: a settings record, or the settings to be written to one.
    MalformedRecord,
    /// 24: a settings record of a version that the reader does not know.
    UnknownVersion,
    /// 25: a name above or beneath the row's has a loose value, or would get one. One name lies beneath another, which is above
    /// it, if it begins with that one and a `/`.
    NameConflict {
        /// The name of the row, which links may have led to.
        name: NameNumber,
    },
    /// 26: a fragment that is longer than the room that is left in the receiver.
    ReceiverFull,
    /// 27: a line of a packed table's text is malformed.
    MalformedLine {
        /// Its number, from 1. Every line counts.
        line: u64,
    },
    /// 32: a buffer that is shorter than the packed table's text.
    TextTooLong,
    /// 33: a buffer that is shorter than the settings record to be written there.
    ShortBuffer,
    /// The archive gave what this crate does not know: it is of another version.
    Unexpected {
        /// The number that it gave.
        number: u32,
    },
}

impl Refusal {
    /// The refusal that a call answered, with what stands in its places.
    pub(crate) fn of(answer: &Answer) -> Refusal {
        Refusal::known(answer).unwrap_or(Refusal::Unexpected { number: answer.number })
    }

    fn known(answer: &Answer) -> Option<Refusal> {
        Some(match answer.number {
            1 => Refusal::BadRegion,
            2 => Refusal::Malformed,
            3 => Refusal::NotRegistered { number: answer.place(0) },
            4 => Refusal::ReferenceCycle,
            5 => Refusal::TooManyRows,
            6 => Refusal::MultipleEdits { name: answer.name(0)? },
            7 => Refusal::PackedTransactionAcquire,
            8 => Refusal::LockAcquire { name: answer.name(0)? },
            9 => Refusal::DeleteReferenceMustExist { name: answer.name(0)? },
            10 => Refusal::MustNotExist { name: answer.name(0)?, actual: answer.target(1)?, new: answer.target(3)? },
            11 => Refusal::MustExist { name: answer.name(0)?, expected: expected_of_11(answer)? },
            12 => Refusal::ReferenceOutOfDate { name: answer.name(0)?, expected: answer.target(1)?, actual: answer.target(3)? },
            13 => Refusal::DeleteMustNotExist { name: answer.name(0)? },
            14 => Refusal::LogFull,
            15 => Refusal::WrongState,
            18 => Refusal::BadName,
            19 => Refusal::NamesFull,
            20 => Refusal::WrongLock,
            21 => Refusal::BadLoad,
            22 => Refusal::NothingThere,
            23 => Refusal::MalformedRecord,
            24 => Refusal::UnknownVersion,
            25 => Refusal::NameConflict { name: answer.name(0)? },
            26 => Refusal::ReceiverFull,
            27 => Refusal::MalformedLine { line: answer.line(0)? },
            32 => Refusal::TextTooLong,
            33 => Refusal::ShortBuffer,
            _ => return None,
        })
    }

    /// The number of docs/SPEC.md's table.
    pub fn number(self) -> u32 {
        match self {
            Refusal::BadRegion => 1,
            Refusal::Malformed => 2,
            Refusal::NotRegistered { .. } => 3,
            Refusal::ReferenceCycle => 4,
            Refusal::TooManyRows => 5,
            Refusal::MultipleEdits { .. } => 6,
            Refusal::PackedTransactionAcquire => 7,
            Refusal::LockAcquire { .. } => 8,
            Refusal::DeleteReferenceMustExist { .. } => 9,
            Refusal::MustNotExist { .. } => 10,
            Refusal::MustExist { .. } => 11,
            Refusal::ReferenceOutOfDate { .. } => 12,
            Refusal::DeleteMustNotExist { .. } => 13,
            Refusal::LogFull => 14,
            Refusal::WrongState => 15,
            Refusal::BadName => 18,
            Refusal::NamesFull => 19,
            Refusal::WrongLock => 20,
            Refusal::BadLoad => 21,
            Refusal::NothingThere => 22,
            Refusal::MalformedRecord => 23,
            Refusal::UnknownVersion => 24,
            Refusal::NameConflict { .. } => 25,
            Refusal::ReceiverFull => 26,
            Refusal::MalformedLine { .. } => 27,
            Refusal::TextTooLong => 32,
            Refusal::ShortBuffer => 33,
            Refusal::Unexpected { number } => number,
        }
    }
}

/// Object 0 says that any value was expected.
fn expected_of_11(answer: &Answer) -> Option<Option<Target>> {
    match (answer.place(1), answer.place(2)) {
        (KIND_OBJECT, 0) => Some(None),
        _ => answer.target(1).map(Some),
    }
}

impl std::error::Error for Refusal {}
