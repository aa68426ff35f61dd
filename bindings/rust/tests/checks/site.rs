//! Stores to begin with.

use crate::tally::{done, same};
use dehlbazin::*;

pub const HEAD: NameNumber = NameNumber(0);
pub const AISLE: NameNumber = NameNumber(1);
pub const MODE: PackedRefs = PackedRefs::DeletionsOnly;
pub const ANY: PreviousValue = PreviousValue::Any;

pub fn object(number: u64) -> Target {
    Target::Object(ObjectNumber::new(number).unwrap())
}

pub fn link(name: NameNumber) -> Target {
    Target::Symbolic(name)
}

pub fn planner() -> Committer {
    Committer::new(1).unwrap()
}

/// What reading a name gives.
pub fn found(target: impl Into<Option<Target>>, place: Place) -> Result<Found, Refusal> {
    Ok(Found { target: target.into(), place })
}

/// The same where the loose value is this target.
pub fn loose(target: Target) -> Result<Found, Refusal> {
    found(target, Place::Loose)
}

/// The same where the name has no value at all.
pub fn absent() -> Result<Found, Refusal> {
    found(None, Place::Absent)
}

/// A region with setting normal and these names.
pub fn site(names: &[&str]) -> Box<Region> {
    let mut region = Box::new([0; REGION_SIZE]);
    let mut store = done(Store::start(&mut region, Setting::Normal));
    for name in names {
        done(store.add_name(name));
    }
    region
}

/// The marked examples' own: HEAD links to the aisle.
pub fn marked() -> Box<Region> {
    let mut region = site(&["HEAD", "refs/heads/aisle"]);
    done(done(Store::open(&mut region)).load_loose(HEAD, link(AISLE)));
    region
}

/// A store whose log has no room left, for 1,024 lines are there: 32 lists of 32 moves.
pub fn full_log() -> Box<Region> {
    let mut region = site(&[]);
    let mut store = done(Store::open(&mut region));
    let names: Vec<_> = (0..32).map(|n| done(store.add_name(format!("refs/heads/aisle-{n}")))).collect();
    for round in 1..=32 {
        let moves = done(EditList::of(names.iter().map(|&name| RefEdit::update(name, ANY, object(round)))));
        same(done(done(store.prepare(&moves, MODE)).commit(Committer::new(65535).unwrap())).writes(), 64);
    }
    region
}

pub fn list(edits: &[RefEdit]) -> EditList {
    EditList::of(edits.iter().copied()).unwrap()
}

/// The lines of a name: previous (0 for none), new, committer, message.
#[track_caller]
pub fn lines_are(store: &Store<'_>, name: NameNumber, wanted: &[[u64; 4]]) {
    let lines = store.lines(name).unwrap();
    let found = lines
        .map(|line| [line.previous.map_or(0, ObjectNumber::get), line.new.get(), line.committer.get(), line.message.get()]);
    same(found.collect::<Vec<_>>(), wanted.to_vec());
}
