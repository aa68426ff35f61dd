//! Foreign locks by the plain entries, which take any kind and any number: what they answer, and that they change the one lock
//! and nothing else.

use crate::plain::{LOCKABLE_NAME, LOCKABLE_PACKED_TABLE};
use crate::site::*;
use crate::step::{make_plainly, Parts, Reply, Step};
use crate::tally::*;
use dehlbazin::*;

const CALLS: [fn(Parts) -> Step; 2] = [Step::PlaceLock, Step::LiftLock];

/// What is no kind. Most of these would be one if they were cut down to fewer bits.
const NO_KINDS: [u64; 13] =
    [2, 3, 255, 256, 257, 65_535, 65_536, 65_537, 1 << 32, (1 << 32) + 1, 1 << 63, (1 << 63) + 1, u64::MAX];

/// The first two are names' where there are names. Most of the others would be too if they were cut down.
const NUMBERS: [u64; 11] = [0, 1, 2, 255, 256, 257, 65_535, 65_536, 1 << 32, (1 << 32) + 1, u64::MAX];

// docs/LAYOUT.md: where the locks stand, and what they are.
const TABLES_LOCK: usize = 12;
const HEADS_LOCK: usize = 21_005;
const AISLES_LOCK: usize = 21_006;
const FREE: u8 = 0;
const FOREIGN: u8 = 1;
const OURS: u8 = 2;

const WRONG_LOCK: Reply = (20, [0; 16]);

fn table(number: u64) -> Parts {
    (LOCKABLE_PACKED_TABLE, number)
}

fn named(name: NameNumber) -> Parts {
    (LOCKABLE_NAME, name.get())
}

#[track_caller]
fn refuses(region: &mut Region, step: &Step, reply: Reply) {
    let before = *region;
    same(make_plainly(step, region), reply);
    check(*region == before, &format!("{step:?} is refused, and changes no byte"));
}

#[track_caller]
fn sets(region: &mut Region, step: &Step, at: usize, lock: u8) {
    let mut after = *region;
    after[at] = lock;
    same(make_plainly(step, region), (0, [0; 16]));
    check(*region == after, &format!("{step:?} sets its lock, and changes no other byte"));
}

/// An update through HEAD's link is prepared.
fn prepared(mode: PackedRefs) -> Box<Region> {
    let mut region = marked();
    let edits = list(&[RefEdit::update(HEAD, ANY, object(7)).through_links()]);
    done(done(Store::open(&mut region)).prepare(&edits, mode)).leave_prepared();
    region
}

/// The two names and the packed table, with their locks free, foreign and ours; and no names.
fn regions() -> [(u64, Box<Region>); 4] {
    let mut foreign = marked();
    let mut store = done(Store::open(&mut foreign));
    for what in [Lockable::Name(HEAD), Lockable::Name(AISLE), Lockable::PackedTable] {
        done(store.place_lock(what));
    }
    let ours = prepared(PackedRefs::DeletionsAndNonSymbolicUpdates);
    for (region, lock) in [(&foreign, FOREIGN), (&ours, OURS)] {
        same([TABLES_LOCK, HEADS_LOCK, AISLES_LOCK].map(|at| region[at]), [lock; 3]);
    }
    [(2, marked()), (2, foreign), (2, ours), (0, site(&[]))]
}

/// All 64 bits of a kind count, and it is looked at before the number beside it and before every lock.
fn kinds() {
    for (_, mut region) in regions() {
        for (kind, number) in NO_KINDS.iter().flat_map(|&kind| NUMBERS.map(|number| (kind, number))) {
            for call in CALLS {
                refuses(&mut region, &call((kind, number)), (2, [0; 16]));
            }
        }
    }
}

/// The number of no name is given back whole.
fn numbers() {
    for (names, mut region) in regions() {
        for number in NUMBERS.into_iter().filter(|&number| number >= names) {
            let mut reply = (3, [0; 16]);
            reply.1[0] = number;
            for call in CALLS {
                refuses(&mut region, &call((LOCKABLE_NAME, number)), reply);
            }
        }
    }
}

/// A region that is not good is refused before a kind that is none.
fn spoilt() {
    for (_, mut region) in regions() {
        region[0] = 2;
        for kind in [LOCKABLE_NAME, LOCKABLE_PACKED_TABLE, 2, u64::MAX] {
            for call in CALLS {
                refuses(&mut region, &call((kind, 0)), (1, [0; 16]));
                refuses(&mut region, &call((kind, u64::MAX)), (1, [0; 16]));
            }
        }
    }
}

/// The number beside the packed table is not looked at. What is placed with one is lifted with any other.
fn any_number() {
    for mut region in [marked(), site(&[]), prepared(MODE)] {
        for (number, other) in NUMBERS.iter().flat_map(|&number| NUMBERS.map(|other| (number, other))) {
            refuses(&mut region, &Step::LiftLock(table(number)), WRONG_LOCK);
            sets(&mut region, &Step::PlaceLock(table(number)), TABLES_LOCK, FOREIGN);
            refuses(&mut region, &Step::PlaceLock(table(other)), WRONG_LOCK);
            sets(&mut region, &Step::LiftLock(table(other)), TABLES_LOCK, FREE);
        }
    }
    let mut ours = prepared(PackedRefs::DeletionsAndNonSymbolicUpdates);
    for (number, call) in NUMBERS.iter().flat_map(|&number| CALLS.map(|call| (number, call))) {
        refuses(&mut ours, &call(table(number)), WRONG_LOCK);
    }
}

/// Each lock is placed and lifted on its own, whichever of the others are foreign. Beside the packed table stands the number of
/// a name, whose lock stays as it is.
fn apart() {
    let locks = [HEADS_LOCK, AISLES_LOCK, TABLES_LOCK];
    let each = [(0, named(HEAD)), (1, named(AISLE)), (2, table(HEAD.get())), (2, table(AISLE.get()))];
    for foreign in 0..8 {
        let mut region = marked();
        for (i, what) in each.into_iter().take(3).filter(|(i, _)| foreign >> i & 1 == 1) {
            sets(&mut region, &Step::PlaceLock(what), locks[i], FOREIGN);
        }
        for (i, what) in each {
            if foreign >> i & 1 == 1 {
                refuses(&mut region, &Step::PlaceLock(what), WRONG_LOCK);
                sets(&mut region, &Step::LiftLock(what), locks[i], FREE);
                sets(&mut region, &Step::PlaceLock(what), locks[i], FOREIGN);
            } else {
                refuses(&mut region, &Step::LiftLock(what), WRONG_LOCK);
                sets(&mut region, &Step::PlaceLock(what), locks[i], FOREIGN);
                sets(&mut region, &Step::LiftLock(what), locks[i], FREE);
            }
        }
    }
}

pub fn all() {
    kinds();
    numbers();
    spoilt();
    any_number();
    apart();
}
