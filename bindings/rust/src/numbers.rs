//! Numbers, each kind a type of its own. Each is made of a whole `u64`: one that is too large is refused, never shortened.

use crate::Refusal;
use std::num::{NonZeroU16, NonZeroU64};

/// The number of a name: from 0, in the order in which the names were added.
///
/// It is no [`ObjectNumber`], and cannot be passed for one.
///
/// ```
/// use dehlbazin::{NameNumber, Refusal};
///
/// assert_eq!(NameNumber::new(7), Ok(NameNumber(7)));
/// assert_eq!(NameNumber::new(65536), Err(Refusal::NotRegistered { number: 65536 })); // not taken for 0
/// ```
#[derive(Clone, Copy, Debug, PartialEq, Eq, PartialOrd, Ord, Hash)]
pub struct NameNumber(pub u16);

/// The number of an object: every 64-bit number but 0, the null id, which is never a target.
///
/// ```
/// use dehlbazin::{ObjectNumber, Refusal};
///
/// assert_eq!(ObjectNumber::new(u64::MAX)?.get(), u64::MAX);
/// assert_eq!(ObjectNumber::new(0), Err(Refusal::Malformed));
/// # Ok::<(), Refusal>(())
/// ```
#[derive(Clone, Copy, Debug, PartialEq, Eq, PartialOrd, Ord, Hash)]
pub struct ObjectNumber(pub NonZeroU64);

/// Who stands in the log lines that a commit writes: 1 to 65,535.
#[derive(Clone, Copy, Debug, PartialEq, Eq, PartialOrd, Ord, Hash)]
pub struct Committer(pub NonZeroU16);

/// The number of a log message: 0 to 65,535.
#[derive(Clone, Copy, Debug, Default, PartialEq, Eq, PartialOrd, Ord, Hash)]
pub struct Message(pub u16);

/// The number of a site, in its settings: 0 to 65,535.
#[derive(Clone, Copy, Debug, Default, PartialEq, Eq, PartialOrd, Ord, Hash)]
pub struct Site(pub u16);

impl NameNumber {
    /// A number above 65,535 is no name's, and is refused as the calls would refuse it, with 3.
    pub fn new(number: u64) -> Result<NameNumber, Refusal> {
        u16::try_from(number).map(NameNumber).map_err(|_| Refusal::NotRegistered { number })
    }

    /// The number as the calls take it.
    pub fn get(self) -> u64 {
        u64::from(self.0)
    }
}

impl ObjectNumber {
    /// 0 is refused, as an edit list would be that has it for a target, with 2.
    pub fn new(number: u64) -> Result<ObjectNumber, Refusal> {
        NonZeroU64::new(number).map(ObjectNumber).ok_or(Refusal::Malformed)
    }

    /// The number as the calls take it.
    pub fn get(self) -> u64 {
        self.0.get()
    }
}

impl Committer {
    /// 0 and a number above 65,535 are refused, with 2. That there is no committer is said by `None`.
    pub fn new(number: u64) -> Result<Committer, Refusal> {
        u16::try_from(number).ok().and_then(NonZeroU16::new).map(Committer).ok_or(Refusal::Malformed)
    }

    /// The number as the calls take it.
    pub fn get(self) -> u64 {
        u64::from(self.0.get())
    }
}

impl Message {
    /// A number above 65,535 is refused, with 2.
    pub fn new(number: u64) -> Result<Message, Refusal> {
        u16::try_from(number).map(Message).map_err(|_| Refusal::Malformed)
    }

    /// The number as the calls give it.
    pub fn get(self) -> u64 {
        u64::from(self.0)
    }
}

impl Site {
    /// A number above 65,535 is refused, as settings would be that have it, with 23.
    pub fn new(number: u64) -> Result<Site, Refusal> {
        u16::try_from(number).map(Site).map_err(|_| Refusal::MalformedRecord)
    }

    /// The number as the calls take it.
    pub fn get(self) -> u64 {
        u64::from(self.0)
    }
}
