//! A store that is read.

use crate::answer::Answer;
use crate::edit::{ROW_DELETE, ROW_UPDATE};
use crate::{
    entries, Change, Committer, Found, LogChange, Message, NameNumber, ObjectNumber, Place, PreviousValue, RefLog, Refusal,
    Region, PACKED_TEXT_MOST_BYTES,
};

/// A line of a name's log.
#[derive(Clone, Copy, Debug, PartialEq, Eq, Hash)]
pub struct Line {
    /// The object before; `None` where there was none.
    pub previous: Option<ObjectNumber>,
    /// The object after.
    pub new: ObjectNumber,
    /// Who committed it.
    pub committer: Committer,
    /// What it says.
    pub message: Message,
}

/// A row of the prepared transaction: an edit, or a child of one through a link.
///
/// Prepare sees packed values only if it opened the packed table. So a row may have found nothing where the name reads a value:
///
/// ```
/// use dehlbazin::{EditList, LogChange, ObjectNumber, PackedRefs, Place, PreviousValue, RefEdit, RefLog, Setting, Store};
///
/// let mut region = vec![0; dehlbazin::REGION_SIZE];
/// let mut store = Store::start_in(&mut region, Setting::Normal)?;
/// let aisle = store.add_name("refs/heads/aisle")?;
/// store.load_packed(aisle, ObjectNumber::new(7)?)?;
///
/// // The packed table is not opened for the log alone.
/// let log = LogChange { mode: RefLog::Only, ..LogChange::default() };
/// let edit = RefEdit::update_with(log, aisle, PreviousValue::Any, ObjectNumber::new(9)?);
/// let transaction = store.prepare(&EditList::of([edit])?, PackedRefs::DeletionsOnly)?;
/// assert_eq!(transaction.store().read_row(0)?.found, Place::Absent);
/// assert_eq!(transaction.store().read_name(aisle)?.place, Place::Packed);
/// # Ok::<(), dehlbazin::Refusal>(())
/// ```
#[derive(Clone, Copy, Debug, PartialEq, Eq, Hash)]
pub struct Row {
    /// Its name.
    pub name: NameNumber,
    /// What becomes of the name. What it expects is what was found there, if something was.
    pub change: Change,
    /// The place of the row that it came from, which is an earlier one.
    pub parent: Option<u64>,
    /// The object at the end of the links, if one was there.
    pub leaf_previous: Option<ObjectNumber>,
    /// Where prepare found the name's value, with packed values seen only if it opened the packed table.
    pub found: Place,
}

/// A good region, to be read. It changes nothing, and the bytes may be in memory that can only be read.
///
/// ```
/// use dehlbazin::{Setting, Store, View};
///
/// let mut region = vec![0; dehlbazin::REGION_SIZE];
/// let head = Store::start_in(&mut region, Setting::Normal)?.add_name("HEAD")?;
/// let view = View::open_in(&region)?;
/// assert_eq!(view.name(head), Ok("HEAD"));
/// assert_eq!(view.read_name(head)?.target, None);
/// # Ok::<(), dehlbazin::Refusal>(())
/// ```
#[derive(Clone, Copy)]
pub struct View<'a> {
    region: &'a Region,
}

impl<'a> View<'a> {
    /// Refused with 1 where the bytes are no good store.
    pub fn open(region: &'a Region) -> Result<View<'a>, Refusal> {
        let view = View { region };
        match view.read_row(0) {
            Ok(_) | Err(Refusal::NothingThere) => Ok(view),
            Err(refusal) => Err(refusal),
        }
    }

    /// The same, of bytes whose size is not known. Refused with 1 where it is another than [`REGION_SIZE`](crate::REGION_SIZE).
    pub fn open_in(bytes: &'a [u8]) -> Result<View<'a>, Refusal> {
        View::open(bytes.try_into().map_err(|_| Refusal::BadRegion)?)
    }

    /// Of a store, whose region was good when it was opened, and was changed by calls alone since.
    pub(crate) fn of(region: &'a Region) -> View<'a> {
        View { region }
    }

    /// The region: to be copied, or kept in a file.
    pub fn region(self) -> &'a Region {
        self.region
    }

    /// The bytes of a name, where they stand in the region.
    pub fn name_bytes(self, name: NameNumber) -> Result<&'a [u8], Refusal> {
        entries::name_bytes(self.region, name.get()).given(|answer| answer.stretch(0, self.region))
    }

    /// The same as text: the bytes of a name are ASCII.
    pub fn name(self, name: NameNumber) -> Result<&'a str, Refusal> {
        std::str::from_utf8(self.name_bytes(name)?).map_err(|_| Refusal::Unexpected { number: 0 })
    }

    /// What a name reads, and where it was found. Packed values are always seen.
    pub fn read_name(self, name: NameNumber) -> Result<Found, Refusal> {
        entries::read_name(self.region, name.get()).given(|answer| answer.found(0))
    }

    /// A line of a name's log, the oldest at place 0.
    pub fn read_line(self, name: NameNumber, place: u64) -> Result<Line, Refusal> {
        entries::read_line(self.region, name.get(), place).given(line_of)
    }

    /// A row of the prepared transaction, from place 0.
    pub fn read_row(self, place: u64) -> Result<Row, Refusal> {
        entries::read_row(self.region, place).given(row_of)
    }

    /// Writes the packed table as text to the beginning of a buffer, and says how many bytes it has: a line for each name that
    /// has a packed value, in byte order of the names, as git's packed-refs file has them. Bytes past the text stay as they
    /// are. It looks at no lock, and a transaction may be prepared. Refused with 32 where the buffer is shorter than the text,
    /// and then no byte of it is changed; one of [`PACKED_TEXT_MOST_BYTES`] never is.
    ///
    /// ```
    /// use dehlbazin::{ObjectNumber, Refusal, Setting, Store};
    ///
    /// let mut region = vec![0; dehlbazin::REGION_SIZE];
    /// let mut store = Store::start_in(&mut region, Setting::Normal)?;
    /// let aisle = store.add_name("refs/heads/aisle")?;
    /// store.load_packed(aisle, ObjectNumber::new(0x2a)?)?;
    ///
    /// let mut buffer = [0; dehlbazin::PACKED_TEXT_MOST_BYTES];
    /// let length = store.write_packed(&mut buffer)?;
    /// assert_eq!(&buffer[..length], b"000000000000000000000000000000000000002a refs/heads/aisle\n");
    /// assert_eq!(store.write_packed(&mut buffer[..length - 1]), Err(Refusal::TextTooLong));
    /// # Ok::<(), Refusal>(())
    /// ```
    pub fn write_packed(self, buffer: &mut [u8]) -> Result<usize, Refusal> {
        let answer = entries::write_packed(self.region, buffer);
        answer.given(|answer| usize::try_from(answer.place(0)).ok().filter(|&length| length <= buffer.len()))
    }

    /// The same text in bytes of its own, which are always enough.
    pub fn packed_text(self) -> Result<Vec<u8>, Refusal> {
        let mut text = vec![0; PACKED_TEXT_MOST_BYTES];
        let length = self.write_packed(&mut text)?;
        text.truncate(length);
        Ok(text)
    }
}

impl std::fmt::Debug for View<'_> {
    fn fmt(&self, f: &mut std::fmt::Formatter<'_>) -> std::fmt::Result {
        f.debug_struct("View").finish_non_exhaustive()
    }
}

fn line_of(answer: &Answer) -> Option<Line> {
    Some(Line {
        previous: answer.object(0),
        new: answer.object(1)?,
        committer: answer.committer(2)?,
        message: answer.message(3)?,
    })
}

fn row_of(answer: &Answer) -> Option<Row> {
    let parent = if answer.flag(10)? { Some(answer.place(11)) } else { None };
    let (name, change) = (answer.name(0)?, change_of(answer)?);
    Some(Row { name, change, parent, leaf_previous: answer.object(12), found: answer.found_in(13)? })
}

fn change_of(answer: &Answer) -> Option<Change> {
    let mode = if answer.flag(2)? { RefLog::Only } else { RefLog::AndReference };
    let expected = PreviousValue::of(answer.place(5), answer.value(6)?)?;
    let kind = answer.place(1);
    if kind == u64::from(ROW_UPDATE) {
        let log = LogChange { mode, force_create_reflog: answer.flag(3)?, message: answer.message(4)? };
        Some(Change::Update { log, expected, new: answer.target(8)? })
    } else if kind == u64::from(ROW_DELETE) {
        Some(Change::Delete { expected, log: mode })
    } else {
        None
    }
}
