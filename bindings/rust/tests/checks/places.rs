//! Where a value was found: each of the five places by both calls, in each mode, with the packed table opened and not. What is
//! wanted stands here in lists, written from docs/SPEC.md. The plain records must say the same as the crate.

use crate::plain::{self, place, Record};
use crate::site::*;
use crate::step::{mode_of, place_number};
use crate::tally::*;
use dehlbazin::*;
use std::collections::BTreeSet;

const SPRING: NameNumber = NameNumber(2);

/// What a name has, and where its value is found: by who sees what is packed, and by who does not.
struct Value {
    loose: Loose,
    packed: Option<ObjectNumber>,
    seen: Place,
    unseen: Place,
}

impl Value {
    fn new(loose: impl Into<Loose>, packed: Option<u64>, seen: Place, unseen: Place) -> Value {
        Value { loose: loose.into(), packed: packed.map(|number| ObjectNumber::new(number).unwrap()), seen, unseen }
    }

    /// What reading the name gives.
    fn found(&self) -> Result<Found, Refusal> {
        match (self.seen, self.loose) {
            (Place::Loose, Loose::Target(target)) => found(target, self.seen),
            (Place::Packed | Place::PackedBehindBroken, _) => found(self.packed.map(Target::Object), self.seen),
            _ => found(None, self.seen),
        }
    }
}

fn values() -> [Value; 8] {
    use Place::{Absent, AbsentBehindBroken, Packed, PackedBehindBroken};
    [
        Value::new(Loose::None, None, Absent, Absent),
        Value::new(Loose::None, Some(3), Packed, Absent),
        Value::new(Loose::Broken, None, AbsentBehindBroken, AbsentBehindBroken),
        Value::new(Loose::Broken, Some(3), PackedBehindBroken, AbsentBehindBroken),
        Value::new(object(5), None, Place::Loose, Place::Loose),
        Value::new(object(5), Some(3), Place::Loose, Place::Loose),
        Value::new(link(HEAD), None, Place::Loose, Place::Loose),
        Value::new(link(HEAD), Some(3), Place::Loose, Place::Loose),
    ]
}

/// When a list opens the packed table.
#[derive(Clone, Copy, PartialEq)]
enum Opens {
    /// It has no row that counts: one that is not log-only, of a name that is packable.
    Never,
    /// It has one, but none that updates to an object: if anything is packed.
    IfPacked,
    /// It has one that updates to an object: in modes 2 and 3 too.
    InModes,
}

impl Opens {
    fn opened(self, mode: u64, packed: bool) -> bool {
        self != Opens::Never && packed || self == Opens::InModes && mode > 1
    }
}

/// Lists whose row 0 is of the aisle.
fn lists() -> [(Opens, Vec<RefEdit>); 9] {
    let to = |name, target| RefEdit::update(name, ANY, target);
    let only = LogChange { mode: RefLog::Only, ..LogChange::default() };
    let line = RefEdit::update_with(only, AISLE, ANY, object(7));
    let no_log = RefEdit { change: Change::Delete { expected: ANY, log: RefLog::Only }, name: AISLE, deref: false };
    [
        (Opens::InModes, vec![to(AISLE, object(7))]),
        (Opens::InModes, vec![line, to(SPRING, object(7))]),
        (Opens::IfPacked, vec![to(AISLE, link(HEAD))]),
        (Opens::IfPacked, vec![RefEdit::delete(AISLE, ANY)]),
        (Opens::IfPacked, vec![line, to(SPRING, link(HEAD))]),
        (Opens::IfPacked, vec![no_log, RefEdit::delete(SPRING, ANY)]),
        (Opens::Never, vec![line]),
        (Opens::Never, vec![no_log]),
        (Opens::Never, vec![line, to(HEAD, object(7))]), // HEAD is not packable
    ]
}

/// The places of a plain record behind those of a value: the place where it was found, and then only 0.
#[track_caller]
fn ends_with(call: impl FnOnce(&mut Record) -> u32, from: usize, wanted: Place) {
    let mut record = [0xaa; 128];
    same(call(&mut record), 0);
    let mut places = vec![0; 16 - from];
    places[0] = place_number(wanted);
    same((from..16).map(|i| place(&record, i)).collect::<Vec<_>>(), places);
}

#[track_caller]
fn name_reads(store: &Store<'_>, name: NameNumber, wanted: Result<Found, Refusal>) {
    same(store.read_name(name), wanted);
    let wanted = done(wanted).place;
    ends_with(|record| plain::read_name(store.region(), name.get(), record), 2, wanted);
}

#[track_caller]
fn row_found(store: &Store<'_>, at: u64, wanted: Place) {
    same(store.read_row(at).map(|row| row.found), Ok(wanted));
    ends_with(|record| plain::read_row(store.region(), at, record), 13, wanted);
}

/// A store where the aisle has this value, and another name is packed or not.
fn store_with(value: &Value, elsewhere: bool) -> Box<Region> {
    let mut region = site(&["HEAD", "refs/heads/aisle", "refs/tags/spring"]);
    let mut store = done(Store::open(&mut region));
    done(store.load_loose(AISLE, value.loose));
    done(store.load_packed(AISLE, value.packed));
    done(store.load_packed(SPRING, elsewhere.then(|| ObjectNumber::new(4).unwrap())));
    region
}

/// The aisle is read, prepared, and read again. It hands back whether the packed table was opened, and what row 0 found.
fn prepared(value: &Value, elsewhere: bool, mode: u64, opens: Opens, edits: &[RefEdit]) -> (bool, Place) {
    let mut region = store_with(value, elsewhere);
    let mut store = done(Store::open(&mut region));
    name_reads(&store, AISLE, value.found());
    let opened = opens.opened(mode, elsewhere || value.packed.is_some());
    let wanted = if opened { value.seen } else { value.unseen };
    let mut transaction = done(store.prepare(&list(edits), mode_of(mode)));
    row_found(transaction.store(), 0, wanted);
    // Opened, its lock is ours. Else others may take it. Neither that nor a new name changes what was found.
    same(transaction.place_lock(Lockable::PackedTable), if opened { Err(Refusal::WrongLock) } else { Ok(()) });
    done(transaction.add_name("refs/heads/another"));
    row_found(transaction.store(), 0, wanted);
    name_reads(transaction.store(), AISLE, value.found());
    (opened, wanted)
}

/// In each mode all five places are found where the packed table is opened, and those without a packed value where it is not.
fn every() {
    let mut met = BTreeSet::new();
    for mode in 1..=3 {
        for (opens, edits) in lists() {
            for (value, elsewhere) in values().iter().flat_map(|value| [(value, false), (value, true)]) {
                let (opened, place) = prepared(value, elsewhere, mode, opens, &edits);
                met.insert((mode, opened, place_number(place)));
            }
        }
    }
    let wanted = (1..=3).flat_map(|mode| {
        let opened = (1..=5).map(move |place| (mode, true, place));
        opened.chain([1, 4, 5].map(|place| (mode, false, place)))
    });
    same(met, wanted.collect());
}

/// A child finds its own name's value: HEAD links to the aisle, and is edited through the link.
fn children() {
    let through = RefEdit::update(HEAD, ANY, object(7)).through_links();
    let only = LogChange { mode: RefLog::Only, ..LogChange::default() };
    let line = RefEdit::update_with(only, HEAD, ANY, object(7)).through_links();
    for (mode, value) in (1..=3).flat_map(|mode| values().map(|value| (mode, value))) {
        if value.loose == Loose::from(link(HEAD)) {
            continue; // the two would lead to each other
        }
        let mut region = store_with(&value, false);
        let mut store = done(Store::open(&mut region));
        done(store.load_loose(HEAD, link(AISLE)));
        for (opens, edit) in [(Opens::InModes, through), (Opens::Never, line)] {
            let transaction = done(store.prepare(&list(&[edit]), mode_of(mode)));
            row_found(transaction.store(), 0, Place::Loose);
            let opened = opens.opened(mode, value.packed.is_some());
            row_found(transaction.store(), 1, if opened { value.seen } else { value.unseen });
        }
    }
}

/// A name that is not packable is found loose, or not at all, though the packed table is opened.
fn unpackable() {
    let edits = [RefEdit::update(HEAD, ANY, object(7)), RefEdit::update(SPRING, ANY, object(7))];
    for value in values().iter().filter(|value| value.packed.is_none()) {
        let mut region = store_with(&values()[0], true);
        let mut store = done(Store::open(&mut region));
        done(store.load_loose(HEAD, value.loose));
        name_reads(&store, HEAD, value.found());
        let mut transaction = done(store.prepare(&list(&edits), MODE));
        refused(transaction.place_lock(Lockable::PackedTable), Refusal::WrongLock);
        row_found(transaction.store(), 0, value.seen);
        row_found(transaction.store(), 1, Place::Packed);
    }
}

/// What the aisle reads after each number of writes; every time from a broken loose value with object 3 packed.
#[track_caller]
fn at_stops(edit: RefEdit, mode: u64, wanted: &[Result<Found, Refusal>]) {
    let [_, _, _, broken, ..] = values();
    let count = wanted.len();
    for (allowance, &wanted) in wanted.iter().enumerate() {
        let mut region = store_with(&broken, false);
        let mut store = done(Store::open(&mut region));
        let outcome = done(done(store.prepare(&list(&[edit]), mode_of(mode))).commit_within(planner(), allowance as u64));
        same((outcome.writes(), outcome.all_written()), (allowance as u64, allowance + 1 == count));
        name_reads(&store, AISLE, wanted);
    }
}

fn stops() {
    let update = RefEdit::update(AISLE, ANY, object(7));
    let behind = |number| found(object(number), Place::PackedBehindBroken);
    let seven = loose(object(7));
    at_stops(update, 1, &[behind(3), behind(3), seven]);
    at_stops(update, 2, &[behind(3), behind(3), seven, seven]);
    at_stops(update, 3, &[behind(3), behind(3), behind(7), found(object(7), Place::Packed)]);
    let deleted = [behind(3), found(None, Place::AbsentBehindBroken), absent()];
    (1..=3).for_each(|mode| at_stops(RefEdit::delete(AISLE, ANY), mode, &deleted));
}

/// The place follows from the values that are there, in a region that no call would leave too: here the loose value that a row
/// found is changed by hand behind it.
fn by_hand() {
    const LOOSE_OF_AISLE: usize = 16_653 + 9; // docs/LAYOUT.md: a kind and eight bytes for each name
    let mut region = store_with(&values()[4], false);
    let mut store = done(Store::open(&mut region));
    done(store.prepare(&list(&[RefEdit::update(AISLE, ANY, object(7))]), MODE)).leave_prepared();
    row_found(&store, 0, Place::Loose);
    for (kind, place) in [(0, Place::Absent), (3, Place::AbsentBehindBroken)] {
        region[LOOSE_OF_AISLE..LOOSE_OF_AISLE + 9].copy_from_slice(&[kind, 0, 0, 0, 0, 0, 0, 0, 0]);
        let store = done(Store::open(&mut region));
        row_found(&store, 0, place);
        let expected = PreviousValue::MustExistAndMatch(object(5));
        let change = Change::Update { log: LogChange::default(), expected, new: object(7) };
        same(store.read_row(0).map(|row| row.change), Ok(change));
        name_reads(&store, AISLE, found(None, place));
    }
}

pub fn all() {
    every();
    children();
    unpackable();
    stops();
    by_hand();
}
