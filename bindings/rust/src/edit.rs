//! Edits, and lists of them, with gix-ref's names.

use crate::{Message, NameNumber, Refusal, Target};

/// What an edit writes: the reference and its log, or the log alone.
#[derive(Clone, Copy, Debug, Default, PartialEq, Eq, Hash)]
pub enum RefLog {
    /// The reference and its log.
    #[default]
    AndReference,
    /// The log alone.
    Only,
}

/// What an update says of its log line.
#[derive(Clone, Copy, Debug, Default, PartialEq, Eq, Hash)]
pub struct LogChange {
    /// The log alone, or the reference too.
    pub mode: RefLog,
    /// A log line for any name, unless the setting is never.
    pub force_create_reflog: bool,
    /// What the line says.
    pub message: Message,
}

/// What an edit expects to find.
#[derive(Clone, Copy, Debug, PartialEq, Eq, Hash)]
pub enum PreviousValue {
    /// Anything, or nothing.
    Any,
    /// Some value.
    MustExist,
    /// Nothing; or, of an update, what it would write.
    MustNotExist,
    /// This value.
    MustExistAndMatch(Target),
    /// This value, or nothing.
    ExistingMustMatch(Target),
}

/// What becomes of a name.
#[derive(Clone, Copy, Debug, PartialEq, Eq, Hash)]
pub enum Change {
    /// It gets a value.
    Update {
        /// What its log line says.
        log: LogChange,
        /// What is there until then.
        expected: PreviousValue,
        /// The value.
        new: Target,
    },
    /// It has none any more.
    Delete {
        /// What is there until then.
        expected: PreviousValue,
        /// The log alone, or the reference too.
        log: RefLog,
    },
}

/// An edit of a name.
///
/// ```
/// use dehlbazin::{Change, LogChange, Message, NameNumber, ObjectNumber, PreviousValue, RefEdit, Target};
///
/// // Update of name 0 through its link to object 7, whatever is there.
/// let new = Target::Object(ObjectNumber::new(7)?);
/// let edit = RefEdit::update(NameNumber(0), PreviousValue::Any, new).through_links();
/// // The same, written out as gix-ref's are, which have public fields; and with a message.
/// let log = LogChange { message: Message(3), ..LogChange::default() };
/// let told = RefEdit { change: Change::Update { log, expected: PreviousValue::Any, new }, name: NameNumber(0), deref: true };
/// assert_eq!(told, RefEdit::update_with(log, NameNumber(0), PreviousValue::Any, new).through_links());
/// assert_ne!(told, edit);
/// # Ok::<(), dehlbazin::Refusal>(())
/// ```
#[derive(Clone, Copy, Debug, PartialEq, Eq, Hash)]
pub struct RefEdit {
    /// What becomes of the name.
    pub change: Change,
    /// The name.
    pub name: NameNumber,
    /// Whether the name's links are followed: the edit is then of the name that they lead to, and each on the way gets a log
    /// line.
    pub deref: bool,
}

impl RefEdit {
    /// An update, with log lines as the setting has them, and message 0.
    pub fn update(name: NameNumber, expected: PreviousValue, new: impl Into<Target>) -> RefEdit {
        RefEdit::update_with(LogChange::default(), name, expected, new)
    }

    /// An update that says something of its log line.
    pub fn update_with(log: LogChange, name: NameNumber, expected: PreviousValue, new: impl Into<Target>) -> RefEdit {
        RefEdit { change: Change::Update { log, expected, new: new.into() }, name, deref: false }
    }

    /// A delete of the reference and its log.
    pub fn delete(name: NameNumber, expected: PreviousValue) -> RefEdit {
        RefEdit { change: Change::Delete { expected, log: RefLog::AndReference }, name, deref: false }
    }

    /// The same edit with `deref` set.
    #[must_use = "the edit itself stays as it was"]
    pub fn through_links(self) -> RefEdit {
        RefEdit { deref: true, ..self }
    }

    /// Its record in a list, 27 bytes.
    fn write(&self, bytes: &mut Vec<u8>) {
        let (kind, log, expected, new) = match self.change {
            Change::Update { log, expected, new } => (ROW_UPDATE, log, expected, Some(new)),
            Change::Delete { expected, log } => (ROW_DELETE, LogChange { mode: log, ..LogChange::default() }, expected, None),
        };
        let (expects, target) = expected.parts();
        bytes.extend([kind, u8::from(self.deref), log.mode.number(), u8::from(log.force_create_reflog), expects]);
        put(bytes, target);
        put(bytes, new);
        bytes.extend(self.name.0.to_be_bytes());
        bytes.extend(log.message.0.to_be_bytes());
    }
}

pub(crate) const ROW_UPDATE: u8 = 1;
pub(crate) const ROW_DELETE: u8 = 2;

/// A target in 9 bytes, all 0 where there is none.
fn put(bytes: &mut Vec<u8>, target: Option<Target>) {
    let (kind, number) = match target {
        None => (0, 0),
        Some(Target::Object(object)) => (1, object.get()),
        Some(Target::Symbolic(name)) => (2, name.get()),
    };
    bytes.push(kind);
    bytes.extend(number.to_be_bytes());
}

impl RefLog {
    fn number(self) -> u8 {
        match self {
            RefLog::AndReference => 0,
            RefLog::Only => 1,
        }
    }
}

impl PreviousValue {
    /// The target that is expected; `None` where none is named.
    pub fn target(self) -> Option<Target> {
        self.parts().1
    }

    fn parts(self) -> (u8, Option<Target>) {
        match self {
            PreviousValue::Any => (0, None),
            PreviousValue::MustExist => (1, None),
            PreviousValue::MustNotExist => (2, None),
            PreviousValue::MustExistAndMatch(target) => (3, Some(target)),
            PreviousValue::ExistingMustMatch(target) => (4, Some(target)),
        }
    }

    /// `None` where a target is missing or one too many.
    pub(crate) fn of(number: u64, target: Option<Target>) -> Option<PreviousValue> {
        match (number, target) {
            (0, None) => Some(PreviousValue::Any),
            (1, None) => Some(PreviousValue::MustExist),
            (2, None) => Some(PreviousValue::MustNotExist),
            (3, Some(target)) => Some(PreviousValue::MustExistAndMatch(target)),
            (4, Some(target)) => Some(PreviousValue::ExistingMustMatch(target)),
            _ => None,
        }
    }
}

/// The packing mode of a transaction.
#[derive(Clone, Copy, Debug, Default, PartialEq, Eq, Hash)]
pub enum PackedRefs {
    /// Only deletes change the packed table.
    #[default]
    DeletionsOnly,
    /// Updates to objects are packed too.
    DeletionsAndNonSymbolicUpdates,
    /// And their loose values are removed.
    DeletionsAndNonSymbolicUpdatesRemoveLooseSourceReference,
}

impl PackedRefs {
    pub(crate) fn number(self) -> u64 {
        match self {
            PackedRefs::DeletionsOnly => 1,
            PackedRefs::DeletionsAndNonSymbolicUpdates => 2,
            PackedRefs::DeletionsAndNonSymbolicUpdatesRemoveLooseSourceReference => 3,
        }
    }

    pub(crate) fn of(number: u64) -> Option<PackedRefs> {
        match number {
            1 => Some(PackedRefs::DeletionsOnly),
            2 => Some(PackedRefs::DeletionsAndNonSymbolicUpdates),
            3 => Some(PackedRefs::DeletionsAndNonSymbolicUpdatesRemoveLooseSourceReference),
            _ => None,
        }
    }
}

/// The edits of a transaction, at most 32.
///
/// ```
/// use dehlbazin::{EditList, NameNumber, PreviousValue, RefEdit, Refusal};
///
/// let edit = RefEdit::delete(NameNumber(0), PreviousValue::Any);
/// let mut list = EditList::of(vec![edit; 32])?;
/// assert_eq!(list.push(edit), Err(Refusal::Malformed)); // a 33rd
/// assert_eq!(list.edits().len(), 32);
/// assert_eq!(EditList::of([edit; 33]), Err(Refusal::Malformed));
/// # Ok::<(), Refusal>(())
/// ```
#[derive(Clone, Debug, Default, PartialEq, Eq, Hash)]
pub struct EditList {
    edits: Vec<RefEdit>,
}

impl EditList {
    /// How many edits a list holds.
    pub const MOST_EDITS: usize = 32;

    /// How many bytes the longest list has, and a receiver has room for.
    pub const MOST_BYTES: usize = 868;

    /// A list without edits.
    pub fn new() -> EditList {
        EditList::default()
    }

    /// The list of these edits. Refused with 2 as soon as a 33rd comes.
    pub fn of(edits: impl IntoIterator<Item = RefEdit>) -> Result<EditList, Refusal> {
        let mut list = EditList::new();
        edits.into_iter().try_for_each(|edit| list.push(edit))?;
        Ok(list)
    }

    /// Adds an edit. A 33rd is refused with 2, as prepare would refuse it, and the list stays as it was.
    pub fn push(&mut self, edit: RefEdit) -> Result<(), Refusal> {
        if self.edits.len() >= EditList::MOST_EDITS {
            return Err(Refusal::Malformed);
        }
        self.edits.push(edit);
        Ok(())
    }

    /// The edits, in their order.
    pub fn edits(&self) -> &[RefEdit] {
        &self.edits
    }

    /// The bytes that stand for the list: a header of 4, and a record of 27 for each edit.
    ///
    /// ```
    /// # use dehlbazin::{EditList, LogChange, Message, NameNumber, ObjectNumber, PreviousValue, RefEdit};
    /// let log = LogChange { message: Message(3), ..LogChange::default() };
    /// let edit = RefEdit::update_with(log, NameNumber(0), PreviousValue::Any, ObjectNumber::new(7)?);
    /// let bytes = EditList::of([edit.through_links()])?.bytes();
    /// assert_eq!(bytes[..9], [1, 0, 0x1C, 1, 1, 1, 0, 0, 0]);
    /// assert_eq!(bytes[18..], [1, 0, 0, 0, 0, 0, 0, 0, 7, 0, 0, 0, 3]);
    /// # Ok::<(), dehlbazin::Refusal>(())
    /// ```
    pub fn bytes(&self) -> Vec<u8> {
        let mut bytes = vec![LIST_VERSION, 0, 0, 0];
        self.edits.iter().for_each(|edit| edit.write(&mut bytes));
        // At most 32 edits, so both numbers fit.
        let count = self.edits.len() as u8;
        let [high, low] = (1 + RECORD_SIZE * u16::from(count)).to_be_bytes();
        bytes.splice(1..4, [high, low, count]);
        bytes
    }
}

const LIST_VERSION: u8 = 1;
const RECORD_SIZE: u16 = 27;
