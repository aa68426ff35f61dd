//! What a site keeps between runs: a record of settings, written and read.

use crate::answer::Answer;
use crate::entries::{self, Head};
use crate::{Committer, PackedRefs, Refusal, Setting, Site};

/// The version of a settings record. One that is written has it; a reader knows it, and those before it.
#[derive(Clone, Copy, Debug, PartialEq, Eq, PartialOrd, Ord, Hash)]
pub enum Version {
    /// Log setting, usual mode and committers.
    One,
    /// And the site.
    Two,
}

impl Version {
    fn number(self) -> u64 {
        match self {
            Version::One => 1,
            Version::Two => 2,
        }
    }
}

/// A committer of a site, with its name.
#[derive(Clone, Copy, Debug, PartialEq, Eq, Hash)]
pub struct NamedCommitter<'a> {
    /// Its number, which a commit takes.
    pub number: Committer,
    /// Its name, which may be any bytes. They stand where they were read from: in the record, or in [`Settings`].
    pub name: &'a [u8],
}

/// The settings of a site: to be written to a record.
///
/// ```
/// use dehlbazin::{Committer, PackedRefs, Refusal, Setting, Settings, SettingsView, Site, Version};
///
/// let mut settings = Settings::new(Setting::Normal, PackedRefs::DeletionsOnly).of_site(Site(7));
/// settings.push(Committer::new(12)?, "planner")?;
/// settings.push(Committer::new(40)?, "night shift")?;
///
/// let mut buffer = [0; Settings::MOST_BYTES];
/// assert_eq!(settings.write(Version::One, &mut buffer), Err(Refusal::MalformedRecord)); // it has no place for a site
/// let record = settings.write(Version::Two, &mut buffer)?;
/// assert_eq!(record.len(), 43);
///
/// let view = SettingsView::read(record, Version::Two)?;
/// assert_eq!(view.read_committer(1)?.name, b"night shift");
/// assert_eq!(view.to_settings()?, settings);
/// # Ok::<(), Refusal>(())
/// ```
#[derive(Clone, Debug, PartialEq, Eq, Hash)]
pub struct Settings {
    /// The log setting.
    pub log: Setting,
    /// The usual mode.
    pub mode: PackedRefs,
    /// The number of the site. Version 1 has no place for it, and is written for site 0 alone.
    pub site: Site,
    committers: Vec<(Committer, Vec<u8>)>,
}

impl Settings {
    /// How many committers a record holds.
    pub const MOST_COMMITTERS: usize = 16;

    /// A buffer of this size holds every record.
    pub const MOST_BYTES: usize = 579;

    /// Settings of site 0, without committers.
    pub fn new(log: Setting, mode: PackedRefs) -> Settings {
        Settings { log, mode, site: Site(0), committers: Vec::new() }
    }

    /// The same settings with another site.
    #[must_use = "the settings are given back"]
    pub fn of_site(self, site: Site) -> Settings {
        Settings { site, ..self }
    }

    /// Adds a committer. A 17th is refused with 23, as [`write`](Settings::write) would refuse it, and the settings stay as
    /// they were. All else is looked at by write: that the name has 1 to 32 bytes, and that the numbers rise.
    pub fn push(&mut self, number: Committer, name: impl AsRef<[u8]>) -> Result<(), Refusal> {
        if self.committers.len() >= Settings::MOST_COMMITTERS {
            return Err(Refusal::MalformedRecord);
        }
        self.committers.push((number, name.as_ref().to_vec()));
        Ok(())
    }

    /// The committers, in the order in which they were added.
    pub fn committers(&self) -> impl ExactSizeIterator<Item = NamedCommitter<'_>> {
        self.committers.iter().map(|(number, name)| NamedCommitter { number: *number, name })
    }

    /// Writes the record to the beginning of a buffer, and gives it as it stands there. Bytes past it stay as they are. Refused
    /// with 23 where a setting is out of bounds, then with 33 where the buffer is shorter than the record, and then no byte of
    /// the buffer is changed.
    pub fn write<'b>(&self, version: Version, buffer: &'b mut [u8]) -> Result<&'b [u8], Refusal> {
        let (log, mode) = (self.log.number(), self.mode.number());
        let head = Head { version: version.number(), log, mode, site: self.site.get() };
        let numbers: Vec<u64> = self.committers().map(|committer| committer.number.get()).collect();
        let lengths: Vec<u64> = self.committers().map(|committer| committer.name.len() as u64).collect();
        let names: Vec<u8> = self.committers().flat_map(|committer| committer.name).copied().collect();
        let answer = entries::write_settings(buffer, &head, &numbers, &lengths, &names);
        answer.given(|answer| buffer.get(..usize::try_from(answer.place(0)).ok()?))
    }
}

/// A settings record that was read. It borrows the record's bytes, and the names of its committers are stretches of them.
///
/// ```
/// use dehlbazin::{Refusal, Setting, SettingsView, Site, Version};
///
/// // Log setting 1, usual mode 1, committer 12, site 7.
/// let record = b"\x02\0\x1A\0\x02\x01\x01\0\x02\x02\x01\0\x0B\x03\0\x0C\x07planner\0\x03\x04\0\x07";
/// let view = SettingsView::read(record, Version::Two)?;
/// assert_eq!((view.log(), view.site()), (Setting::Normal, Site(7)));
/// for committer in view.committers() {
///     assert_eq!((committer.number.get(), committer.name), (12, &b"planner"[..]));
/// }
/// assert_eq!(view.read_committer(1), Err(Refusal::NothingThere));
/// // A reader that knows version 1 alone refuses it, and does not guess.
/// assert_eq!(SettingsView::read(record, Version::One).unwrap_err(), Refusal::UnknownVersion);
/// # Ok::<(), Refusal>(())
/// ```
///
/// A name lives no longer than its record:
///
/// ```compile_fail,E0505
/// # use dehlbazin::{Refusal, SettingsView, Version};
/// # fn service(record: Vec<u8>) -> Result<(), Refusal> {
/// let name = SettingsView::read(&record, Version::Two)?.read_committer(0)?.name;
/// drop(record); // does not compile: the name stands in the record
/// println!("{name:?}");
/// # Ok(())
/// # }
/// ```
#[derive(Clone, Copy, Debug, PartialEq, Eq, Hash)]
pub struct SettingsView<'r> {
    record: &'r [u8],
    known: Version,
    log: Setting,
    mode: PackedRefs,
    site: Site,
    committer_count: u64,
}

impl<'r> SettingsView<'r> {
    /// Reads a record, of a version that is known. Refused with 24 where it is of another, then with 23 where it is empty or
    /// malformed.
    pub fn read(record: &'r [u8], known: Version) -> Result<SettingsView<'r>, Refusal> {
        entries::read_settings(record, known.number()).given(|answer| {
            let (log, mode, site) = (answer.setting(0)?, answer.mode(1)?, answer.site(2)?);
            Some(SettingsView { record, known, log, mode, site, committer_count: answer.place(3) })
        })
    }

    /// The record: to be copied, kept in a file, or to start a store with.
    pub fn record(self) -> &'r [u8] {
        self.record
    }

    /// The log setting.
    pub fn log(self) -> Setting {
        self.log
    }

    /// The usual mode.
    pub fn mode(self) -> PackedRefs {
        self.mode
    }

    /// The number of the site; 0 in a record of version 1.
    pub fn site(self) -> Site {
        self.site
    }

    /// How many committers there are.
    pub fn committer_count(self) -> u64 {
        self.committer_count
    }

    /// A committer, from place 0. Refused with 22 where there is none.
    pub fn read_committer(self, place: u64) -> Result<NamedCommitter<'r>, Refusal> {
        let name_in = |answer: &Answer| answer.stretch(1, self.record);
        entries::read_committer(self.record, self.known.number(), place)
            .given(|answer| Some(NamedCommitter { number: answer.committer(0)?, name: name_in(answer)? }))
    }

    /// The committers, by rising number.
    pub fn committers(self) -> Committers<'r> {
        Committers { view: self, place: 0 }
    }

    /// A copy that borrows nothing, to be changed and written anew. Of a record that was read nothing is refused.
    pub fn to_settings(self) -> Result<Settings, Refusal> {
        let mut settings = Settings::new(self.log, self.mode).of_site(self.site);
        for place in 0..self.committer_count {
            let committer = self.read_committer(place)?;
            settings.push(committer.number, committer.name)?;
        }
        Ok(settings)
    }
}

/// The committers of a record, by rising number. Each is read when the walk comes to it.
#[derive(Clone, Debug)]
pub struct Committers<'r> {
    view: SettingsView<'r>,
    place: u64,
}

// The record is lent to the walk, so that what was good stays so: a refusal is the end of what is there, and stays the end.

impl<'r> Iterator for Committers<'r> {
    type Item = NamedCommitter<'r>;

    fn next(&mut self) -> Option<NamedCommitter<'r>> {
        let committer = self.view.read_committer(self.place).ok()?;
        self.place += 1;
        Some(committer)
    }
}

impl std::iter::FusedIterator for Committers<'_> {}
