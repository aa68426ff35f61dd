//! What an entry answers: a number, and a record of 16 places.

use crate::{Committer, Found, Message, NameNumber, ObjectNumber, PackedRefs, Place, Refusal, Setting, Site, Target};

pub(crate) const ANSWER_SIZE: usize = 128;
pub(crate) type Record = [u8; ANSWER_SIZE];

pub(crate) const KIND_NONE: u64 = 0;
pub(crate) const KIND_OBJECT: u64 = 1;
pub(crate) const KIND_LINK: u64 = 2;
pub(crate) const KIND_BROKEN: u64 = 3;

/// The number of a call that is done.
pub(crate) const DONE: u32 = 0;

pub(crate) struct Answer {
    pub(crate) number: u32,
    pub(crate) record: Record,
}

/// What a place holds is tested before it is believed: each of these gives `None` for a number that the call does not give
/// there.
impl Answer {
    /// Place `i`, big-endian; 0 past the last one.
    pub(crate) fn place(&self, i: usize) -> u64 {
        self.record
            .chunks_exact(8)
            .nth(i)
            .map_or(0, |place| place.iter().fold(0, |number, &byte| number << 8 | u64::from(byte)))
    }

    pub(crate) fn name(&self, i: usize) -> Option<NameNumber> {
        NameNumber::new(self.place(i)).ok()
    }

    pub(crate) fn object(&self, i: usize) -> Option<ObjectNumber> {
        ObjectNumber::new(self.place(i)).ok()
    }

    pub(crate) fn committer(&self, i: usize) -> Option<Committer> {
        Committer::new(self.place(i)).ok()
    }

    pub(crate) fn message(&self, i: usize) -> Option<Message> {
        Message::new(self.place(i)).ok()
    }

    /// The number of a line, which is counted from 1.
    pub(crate) fn line(&self, i: usize) -> Option<u64> {
        Some(self.place(i)).filter(|&line| line > 0)
    }

    pub(crate) fn setting(&self, i: usize) -> Option<Setting> {
        Setting::of(self.place(i))
    }

    pub(crate) fn mode(&self, i: usize) -> Option<PackedRefs> {
        PackedRefs::of(self.place(i))
    }

    pub(crate) fn site(&self, i: usize) -> Option<Site> {
        Site::new(self.place(i)).ok()
    }

    /// The stretch of these bytes that two places say, by its offset and its length.
    pub(crate) fn stretch<'b>(&self, i: usize, bytes: &'b [u8]) -> Option<&'b [u8]> {
        let offset = usize::try_from(self.place(i)).ok()?;
        let length = usize::try_from(self.place(i + 1)).ok()?;
        bytes.get(offset..)?.get(..length)
    }

    pub(crate) fn flag(&self, i: usize) -> Option<bool> {
        match self.place(i) {
            0 => Some(false),
            1 => Some(true),
            _ => None,
        }
    }

    /// The target in two places, its kind and its number.
    pub(crate) fn target(&self, i: usize) -> Option<Target> {
        match self.place(i) {
            KIND_OBJECT => self.object(i + 1).map(Target::Object),
            KIND_LINK => self.name(i + 1).map(Target::Symbolic),
            _ => None,
        }
    }

    /// The same where there may be none.
    pub(crate) fn value(&self, i: usize) -> Option<Option<Target>> {
        match (self.place(i), self.place(i + 1)) {
            (KIND_NONE, 0) => Some(None),
            _ => self.target(i).map(Some),
        }
    }

    /// Where a value was found.
    pub(crate) fn found_in(&self, i: usize) -> Option<Place> {
        Place::of(self.place(i))
    }

    /// What a name reads, in three places. There is a value exactly if it was found somewhere.
    pub(crate) fn found(&self, i: usize) -> Option<Found> {
        let found = Found { target: self.value(i)?, place: self.found_in(i + 2)? };
        Some(found).filter(|found| found.target.is_none() == found.place.is_absent())
    }

    /// What a call gives when it is done, or its refusal.
    pub(crate) fn given<T>(&self, read: impl FnOnce(&Answer) -> Option<T>) -> Result<T, Refusal> {
        if self.number != DONE {
            return Err(Refusal::of(self));
        }
        read(self).ok_or(Refusal::Unexpected { number: self.number })
    }

    /// The same of a call that has nothing to give.
    pub(crate) fn done(&self) -> Result<(), Refusal> {
        self.given(|_| Some(()))
    }
}
