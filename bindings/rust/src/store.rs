//! A store, in a region that is lent.

use crate::answer::{Answer, DONE, KIND_NONE, KIND_OBJECT};
use crate::{
    entries, Committer, EditList, Found, Line, Lines, Lockable, Loose, NameNumber, Names, ObjectNumber, PackedRefs,
    ReceiverBytes, Refusal, Region, Row, Rows, Transaction, View,
};

/// Which names get log lines.
#[derive(Clone, Copy, Debug, PartialEq, Eq, Hash)]
pub enum Setting {
    /// None.
    Never,
    /// `HEAD`, and names under `refs/heads/`, `refs/remotes/` and `refs/notes/`.
    Normal,
    /// `HEAD`, and names under `refs/`.
    Always,
}

impl Setting {
    pub(crate) fn number(self) -> u64 {
        match self {
            Setting::Never => 0,
            Setting::Normal => 1,
            Setting::Always => 2,
        }
    }

    pub(crate) fn of(number: u64) -> Option<Setting> {
        match number {
            0 => Some(Setting::Never),
            1 => Some(Setting::Normal),
            2 => Some(Setting::Always),
            _ => None,
        }
    }
}

/// An allowance that is always enough. No transaction has more than 321 writes.
pub const EVERY_WRITE: u64 = u64::MAX;

/// How a commit ended that was not refused. The transaction is over. Where it was stopped, what it wrote until then stays.
#[derive(Clone, Copy, Debug, PartialEq, Eq, Hash)]
#[must_use = "a commit may have been stopped on its way"]
pub enum Outcome {
    /// All was written.
    AllWritten {
        /// How many writes were made.
        writes: u64,
    },
    /// 16: stopped before a log line, which has no committer.
    NoCommitter {
        /// How many writes were made.
        writes: u64,
    },
    /// 17: stopped with the allowance used up.
    UsedUp {
        /// How many writes were made.
        writes: u64,
    },
}

impl Outcome {
    /// How many writes were made.
    pub fn writes(self) -> u64 {
        match self {
            Outcome::AllWritten { writes } | Outcome::NoCommitter { writes } | Outcome::UsedUp { writes } => writes,
        }
    }

    /// Whether it came to its end.
    pub fn all_written(self) -> bool {
        matches!(self, Outcome::AllWritten { .. })
    }

    /// The number of docs/SPEC.md's table: 0, 16 or 17.
    pub fn number(self) -> u32 {
        match self {
            Outcome::AllWritten { .. } => DONE,
            Outcome::NoCommitter { .. } => NO_COMMITTER,
            Outcome::UsedUp { .. } => USED_UP,
        }
    }

    fn of(answer: &Answer) -> Result<Outcome, Refusal> {
        let writes = answer.place(0);
        match answer.number {
            DONE => Ok(Outcome::AllWritten { writes }),
            NO_COMMITTER => Ok(Outcome::NoCommitter { writes }),
            USED_UP => Ok(Outcome::UsedUp { writes }),
            _ => Err(Refusal::of(answer)),
        }
    }
}

const NO_COMMITTER: u32 = 16;
const USED_UP: u32 = 17;

/// A region that is lent for as long as the store lives, and a good one.
///
/// What a call gives of the region's own bytes borrows the store, so that nothing is changed below it:
///
/// ```compile_fail,E0502
/// # let mut region = vec![0; dehlbazin::REGION_SIZE];
/// # let mut store = dehlbazin::Store::start_in(&mut region, dehlbazin::Setting::Normal)?;
/// let head = store.add_name("HEAD")?;
/// let bytes = store.name_bytes(head)?;
/// store.add_name(bytes)?; // does not compile: the bytes stand in the region, and are copied first
/// # Ok::<(), dehlbazin::Refusal>(())
/// ```
///
/// ```
/// # let mut region = vec![0; dehlbazin::REGION_SIZE];
/// # let mut store = dehlbazin::Store::start_in(&mut region, dehlbazin::Setting::Normal)?;
/// let head = store.add_name("HEAD")?;
/// let bytes = store.name_bytes(head)?.to_vec();
/// assert_eq!(store.add_name(bytes)?, head);
/// # Ok::<(), dehlbazin::Refusal>(())
/// ```
pub struct Store<'a> {
    region: &'a mut Region,
}

/// A store is made.
impl<'a> Store<'a> {
    /// Makes an empty store, whatever the bytes were.
    pub fn start(region: &'a mut Region, setting: Setting) -> Result<Store<'a>, Refusal> {
        let mut store = Store { region };
        store.restart(setting)?;
        Ok(store)
    }

    /// The same in bytes whose size is not known, as those of a file. Refused with 1 where it is another than
    /// [`REGION_SIZE`](crate::REGION_SIZE).
    pub fn start_in(bytes: &'a mut [u8], setting: Setting) -> Result<Store<'a>, Refusal> {
        Store::start(bytes.try_into().map_err(|_| Refusal::BadRegion)?, setting)
    }

    /// Makes an empty store with the log setting of a settings record, of either version. Refused with 24 and 23 as
    /// [`SettingsView::read`](crate::SettingsView::read) refuses a record, and then no byte of the region is changed.
    ///
    /// ```
    /// use dehlbazin::{PackedRefs, Setting, Settings, Store, Version};
    ///
    /// let mut buffer = [0; Settings::MOST_BYTES];
    /// let record = Settings::new(Setting::Always, PackedRefs::DeletionsOnly).write(Version::One, &mut buffer)?;
    /// let (mut region, mut other) = (vec![0; dehlbazin::REGION_SIZE], vec![0; dehlbazin::REGION_SIZE]);
    /// let store = Store::start_with_settings_in(&mut region, record)?;
    /// assert!(store.region() == Store::start_in(&mut other, Setting::Always)?.region());
    /// # Ok::<(), dehlbazin::Refusal>(())
    /// ```
    pub fn start_with_settings(region: &'a mut Region, record: &[u8]) -> Result<Store<'a>, Refusal> {
        let mut store = Store { region };
        store.restart_with_settings(record)?;
        Ok(store)
    }

    /// The same in bytes whose size is not known. Refused with 1 where it is another, before the record is looked at.
    pub fn start_with_settings_in(bytes: &'a mut [u8], record: &[u8]) -> Result<Store<'a>, Refusal> {
        Store::start_with_settings(bytes.try_into().map_err(|_| Refusal::BadRegion)?, record)
    }

    /// Takes up the store that stands there. Refused with 1 where the bytes are no good store. A transaction that was left
    /// prepared stays so: [`commit`](Store::commit) or [`rollback`](Store::rollback) end it.
    pub fn open(region: &'a mut Region) -> Result<Store<'a>, Refusal> {
        View::open(region)?;
        Ok(Store { region })
    }

    /// The same of bytes whose size is not known.
    pub fn open_in(bytes: &'a mut [u8]) -> Result<Store<'a>, Refusal> {
        Store::open(bytes.try_into().map_err(|_| Refusal::BadRegion)?)
    }

    /// The same store, lent on.
    pub(crate) fn reborrow(&mut self) -> Store<'_> {
        Store { region: self.region }
    }

    /// Makes it empty, with a log setting. What was there is gone, a transaction that was left prepared too.
    pub fn restart(&mut self, setting: Setting) -> Result<(), Refusal> {
        entries::start(self.region, setting.number()).done()
    }

    /// The same with the log setting of a settings record. Where the record is refused, with 24 or 23, all stays as it was.
    pub fn restart_with_settings(&mut self, record: &[u8]) -> Result<(), Refusal> {
        entries::start_with_settings(self.region, record).done()
    }
}

/// A store is changed.
impl Store<'_> {
    /// The number of a name, which is added where it is new. Refused with 18 where the bytes are no name, with 19 where it is
    /// new and 256 are held.
    pub fn add_name(&mut self, name: impl AsRef<[u8]>) -> Result<NameNumber, Refusal> {
        entries::add_name(self.region, name.as_ref()).given(|answer| answer.name(0))
    }

    /// Sets the loose value of a name, whatever its lock. Refused with 21 for a value where a name above or beneath has a loose
    /// one: where one of the two begins with the other and a `/`.
    ///
    /// ```
    /// use dehlbazin::{Loose, ObjectNumber, Refusal, Setting, Store, Target};
    ///
    /// let mut region = vec![0; dehlbazin::REGION_SIZE];
    /// let mut store = Store::start_in(&mut region, Setting::Normal)?;
    /// let aisle = store.add_name("refs/heads/aisle")?;
    /// let shelf = store.add_name("refs/heads/aisle/shelf")?;
    /// let layout = Target::Object(ObjectNumber::new(7)?);
    /// store.load_loose(aisle, layout)?;
    /// assert_eq!(store.load_loose(shelf, layout), Err(Refusal::BadLoad));
    /// store.load_loose(aisle, Loose::None)?;
    /// store.load_loose(shelf, layout)?;
    /// # Ok::<(), Refusal>(())
    /// ```
    pub fn load_loose(&mut self, name: NameNumber, value: impl Into<Loose>) -> Result<(), Refusal> {
        let (kind, number) = value.into().parts();
        entries::load_loose(self.region, name.get(), kind, number).done()
    }

    /// Sets the packed value of a name, whatever the locks. Refused with 21 for an object of a name that is not packable.
    pub fn load_packed(&mut self, name: NameNumber, value: impl Into<Option<ObjectNumber>>) -> Result<(), Refusal> {
        let (kind, number) = value.into().map_or((KIND_NONE, 0), |object| (KIND_OBJECT, object.get()));
        entries::load_packed(self.region, name.get(), kind, number).done()
    }

    /// Reads a text, puts what it says in the place of the whole packed table, and says how many refs were read. A name that
    /// the text does not have has no packed value then, and one that is not known is added. Loose values, locks, logs and the
    /// numbers of names stay as they are, and no lock is looked at. A text of no bytes is an empty table.
    ///
    /// The first line at fault decides, and then nothing is changed. Refused with 27 where it is malformed, or its name does
    /// not stand behind that of the ref line before it; with 21 for object 0, and for a name that is not packable; with 19 for
    /// a new name where 256 are held.
    ///
    /// ```
    /// use dehlbazin::{Refusal, Setting, Store};
    ///
    /// let mut region = vec![0; dehlbazin::REGION_SIZE];
    /// let mut store = Store::start_in(&mut region, Setting::Normal)?;
    /// // As git writes it: with a header, and with a line of its own for the object that a tag names.
    /// let text = "# pack-refs with: peeled fully-peeled sorted \n\
    ///             0000000000000000000000000000000000000007 refs/heads/aisle\n\
    ///             0000000000000000000000000000000000000003 refs/tags/spring\n\
    ///             ^8f3a52c0d1e6b7948f3a52c0d1e6b7948f3a52c0\n";
    /// assert_eq!(store.read_packed(text)?, 2);
    /// assert_eq!(store.names().map(|name| name.text).collect::<Vec<_>>(), ["refs/heads/aisle", "refs/tags/spring"]);
    ///
    /// // A text that was cut is refused by the line that is not whole, and the table stays.
    /// let kept = store.packed_text()?;
    /// assert_eq!(store.read_packed(&text[..150]), Err(Refusal::MalformedLine { line: 3 }));
    /// assert_eq!(store.packed_text()?, kept);
    /// # Ok::<(), Refusal>(())
    /// ```
    ///
    /// While a transaction is prepared no text is read: it borrows the store. One that was left prepared in the region makes it
    /// refused with 15.
    ///
    /// ```compile_fail,E0499
    /// # use dehlbazin::{EditList, PackedRefs, Refusal, Store};
    /// # fn service(store: &mut Store<'_>) -> Result<u64, Refusal> {
    /// let transaction = store.prepare(&EditList::new(), PackedRefs::DeletionsOnly)?;
    /// store.read_packed("")?; // does not compile
    /// transaction.rollback()
    /// # }
    /// ```
    pub fn read_packed(&mut self, text: impl AsRef<[u8]>) -> Result<u64, Refusal> {
        entries::read_packed(self.region, text.as_ref()).given(|answer| Some(answer.place(0)))
    }

    /// Places a foreign lock on a name or on the packed table: another program holds it. Refused with 3 where there is no such
    /// name, with 20 where the lock is not free.
    pub fn place_lock(&mut self, what: impl Into<Lockable>) -> Result<(), Refusal> {
        let (kind, number) = what.into().parts();
        entries::place_lock(self.region, kind, number).done()
    }

    /// Lifts the foreign lock of a name or of the packed table. Refused with 3 where there is no such name, with 20 where the
    /// lock is not foreign.
    pub fn lift_lock(&mut self, what: impl Into<Lockable>) -> Result<(), Refusal> {
        let (kind, number) = what.into().parts();
        entries::lift_lock(self.region, kind, number).done()
    }

    /// Prepares the edits: all of them, or none and the reason why. The same as [`Transaction::prepare`].
    pub fn prepare(&mut self, edits: &EditList, packed_refs: PackedRefs) -> Result<Transaction<'_>, Refusal> {
        Transaction::prepare(self, edits, packed_refs)
    }

    /// How many rows the edits became.
    pub(crate) fn make_rows(&mut self, edits: &EditList, packed_refs: PackedRefs) -> Result<u64, Refusal> {
        entries::prepare(self.region, &edits.bytes(), packed_refs.number()).given(|answer| Some(answer.place(0)))
    }

    /// The same with the list that a receiver holds. The receiver is fresh then.
    pub(crate) fn make_rows_of(&mut self, receiver: &mut ReceiverBytes, packed_refs: PackedRefs) -> Result<u64, Refusal> {
        entries::close_receiver(self.region, receiver, packed_refs.number()).given(|answer| Some(answer.place(0)))
    }

    /// Commits what was left prepared in the region, with every write. Refused with 15 where nothing is.
    pub fn commit(&mut self, committer: impl Into<Option<Committer>>) -> Result<Outcome, Refusal> {
        self.commit_within(committer, EVERY_WRITE)
    }

    /// The same with an allowance of writes.
    pub fn commit_within(&mut self, committer: impl Into<Option<Committer>>, allowance: u64) -> Result<Outcome, Refusal> {
        Outcome::of(&entries::commit(self.region, committer.into().map_or(0, Committer::get), allowance))
    }

    /// Gives up what was left prepared in the region, and says how many rows that were; 0 where nothing was.
    pub fn rollback(&mut self) -> Result<u64, Refusal> {
        entries::rollback(self.region).given(|answer| Some(answer.place(0)))
    }
}

/// A store is read. Each of these is the same as that of a [`View`].
impl Store<'_> {
    /// The store, to be read.
    pub fn view(&self) -> View<'_> {
        View::of(self.region)
    }

    /// The region: to be copied, or kept in a file.
    pub fn region(&self) -> &Region {
        self.view().region()
    }

    /// The bytes of a name, where they stand in the region.
    pub fn name_bytes(&self, name: NameNumber) -> Result<&[u8], Refusal> {
        self.view().name_bytes(name)
    }

    /// The same as text.
    pub fn name(&self, name: NameNumber) -> Result<&str, Refusal> {
        self.view().name(name)
    }

    /// What a name reads, and where it was found.
    pub fn read_name(&self, name: NameNumber) -> Result<Found, Refusal> {
        self.view().read_name(name)
    }

    /// A line of a name's log, the oldest at place 0.
    pub fn read_line(&self, name: NameNumber, place: u64) -> Result<Line, Refusal> {
        self.view().read_line(name, place)
    }

    /// A row of the prepared transaction, from place 0.
    pub fn read_row(&self, place: u64) -> Result<Row, Refusal> {
        self.view().read_row(place)
    }

    /// Writes the packed table as text to the beginning of a buffer, and says how many bytes it has. Refused with 32 where the
    /// buffer is shorter.
    pub fn write_packed(&self, buffer: &mut [u8]) -> Result<usize, Refusal> {
        self.view().write_packed(buffer)
    }

    /// The same text in bytes of its own, which are always enough.
    pub fn packed_text(&self) -> Result<Vec<u8>, Refusal> {
        self.view().packed_text()
    }

    /// The names, in the order in which they were added.
    pub fn names(&self) -> Names<'_> {
        self.view().names()
    }

    /// The lines of a name's log, the oldest first. Refused with 3 where there is no such name.
    pub fn lines(&self, name: NameNumber) -> Result<Lines<'_>, Refusal> {
        self.view().lines(name)
    }

    /// The rows of the prepared transaction; none where none is prepared.
    pub fn rows(&self) -> Rows<'_> {
        self.view().rows()
    }
}

impl<'s> From<&'s Store<'_>> for View<'s> {
    fn from(store: &'s Store<'_>) -> View<'s> {
        store.view()
    }
}

impl std::fmt::Debug for Store<'_> {
    fn fmt(&self, f: &mut std::fmt::Formatter<'_>) -> std::fmt::Result {
        f.debug_struct("Store").finish_non_exhaustive()
    }
}
