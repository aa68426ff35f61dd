//! Random calls, each made through the crate and by the plain entry, on two regions that stay the same byte for byte.

use crate::dice::Dice;
use crate::lines::{is_name, name_count, ref_line};
use crate::plain::{LOCKABLE_NAME, LOCKABLE_PACKED_TABLE};
use crate::record::{written, Plan};
use crate::step::*;
use crate::tally::check;
use dehlbazin::*;
use std::collections::BTreeMap;

const KINDS: usize = 18;
const NUMBERS: [u32; 24] = [0, 1, 3, 4, 6, 7, 8, 9, 10, 11, 12, 13, 15, 16, 17, 18, 20, 21, 22, 23, 24, 25, 27, 32];

/// Two regions, and what was made on both.
struct Pair {
    typed: Box<Region>,
    plain: Box<Region>,
    names: u16,
    numbers: BTreeMap<u32, u64>,
    done: [u64; KINDS],
    transactions: u64,
    children: u64,
    leaves: u64,
    /// The places of values, with the call that gave each.
    places: BTreeMap<(&'static str, u64), u64>,
}

/// Which of the calls on a region. Those of a lock count for a name and for the packed table, each on its own.
fn kind(step: &Step) -> usize {
    match step {
        Step::Start(_) => 0,
        Step::AddName(_) => 1,
        Step::NameBytes(_) => 2,
        Step::LoadLoose(..) => 3,
        Step::LoadPacked(..) => 4,
        Step::PlaceLock((LOCKABLE_NAME, _)) => 5,
        Step::PlaceLock(_) => 6,
        Step::LiftLock((LOCKABLE_NAME, _)) => 7,
        Step::LiftLock(_) => 8,
        Step::Prepare(..) => 9,
        Step::Commit(..) => 10,
        Step::Rollback => 11,
        Step::ReadName(_) => 12,
        Step::ReadLine(..) => 13,
        Step::ReadRow(_) => 14,
        Step::StartWith(_) => 15,
        Step::WritePacked(_) => 16,
        Step::ReadPacked(_) => 17,
    }
}

impl Pair {
    fn new() -> Pair {
        let mut region = Box::new([0; REGION_SIZE]);
        Store::start(&mut region, Setting::Normal).unwrap();
        let plain = region.clone();
        Pair {
            typed: region,
            plain,
            names: 0,
            numbers: BTreeMap::new(),
            done: [0; KINDS],
            transactions: 0,
            children: 0,
            leaves: 0,
            places: BTreeMap::new(),
        }
    }

    /// Makes it plainly, and compares with what the crate answered.
    fn compare(&mut self, step: &Step, typed: Reply, region: &Region) {
        let plain = make_plainly(step, &mut self.plain);
        check(typed == plain, &format!("{step:?}: typed {typed:?}, plain {plain:?}"));
        check(*region == *self.plain, &format!("the same bytes after {step:?}"));
        *self.numbers.entry(plain.0).or_default() += 1;
        if !matches!(plain.0, 0 | 16 | 17) {
            return;
        }
        self.done[kind(step)] += 1;
        match step {
            Step::Start(_) | Step::StartWith(_) => self.names = 0,
            Step::AddName(_) => self.names = self.names.max(plain.1[0] as u16 + 1),
            Step::ReadPacked(_) => self.names = name_count(&self.plain) as u16,
            Step::ReadName(_) => *self.places.entry(("read_name", plain.1[2])).or_default() += 1,
            Step::ReadRow(_) => {
                self.children += plain.1[10];
                self.leaves += u64::from(plain.1[12] != 0);
                *self.places.entry(("read_row", plain.1[13])).or_default() += 1;
            }
            _ => (),
        }
    }

    /// On a store that is opened for it, which refuses a region that is spoilt: the two starts alone take it.
    fn step(&mut self, step: &Step) {
        let mut region = std::mem::replace(&mut self.typed, Box::new([0; REGION_SIZE]));
        let typed = match (step, Store::open(&mut region)) {
            (_, Ok(mut store)) => make(step, &mut store),
            (Step::Start(setting), Err(_)) => reply(Store::start(&mut region, setting_of(*setting)), |_| vec![]),
            (Step::StartWith(record), Err(_)) => reply(Store::start_with_settings(&mut region, record), |_| vec![]),
            (_, Err(refusal)) => reply(Err(refusal), |_: ()| vec![]),
        };
        self.compare(step, typed, &region);
        self.typed = region;
    }

    /// A transaction that is held meanwhile, and ended in one of three ways.
    fn transaction(&mut self, dice: &mut Dice) {
        let mut step = some_prepare(dice, self.names);
        if dice.once_in(2) {
            let chain = some_chain(dice, self.names);
            chain.iter().for_each(|step| self.step(step));
            step = Step::Prepare(vec![some_edit_through(dice, self.names)], 1 + dice.below(3));
        }
        let mut region = std::mem::replace(&mut self.typed, Box::new([0; REGION_SIZE]));
        let mut store = Store::open(&mut region).unwrap();
        if let Step::Prepare(edits, mode) = &step {
            let held = store.prepare(&list_of(edits), mode_of(*mode)).map(|transaction| self.hold(&step, transaction, dice));
            if let Err(refusal) = held {
                self.compare(&step, reply(Err(refusal), |_: ()| vec![]), &region);
            }
        }
        check(*region == *self.plain, "the same bytes after a transaction");
        self.typed = region;
    }

    fn hold(&mut self, step: &Step, mut transaction: Transaction<'_>, dice: &mut Dice) {
        let rows = transaction.row_count();
        self.compare(step, reply(Ok(rows), |rows| vec![rows]), transaction.store().region());
        let reads = (0..rows.min(8) + 1).map(Step::ReadRow);
        let others = (0..dice.below(4)).map(|_| some_step_meanwhile(dice, self.names));
        for step in reads.chain(others).collect::<Vec<_>>() {
            let typed = make_meanwhile(&step, &mut transaction);
            self.compare(&step, typed, transaction.store().region());
        }
        self.transactions += 1;
        let (committer, allowance) = some_commit(dice);
        let mut after = *transaction.store().region();
        let typed = match dice.below(4) {
            0 => reply(transaction.rollback(), |rows| vec![rows]),
            1 => {
                drop(transaction);
                reply(Ok(rows), |rows| vec![rows])
            }
            _ => {
                let typed = outcome(transaction.commit_within(committer_of(committer), allowance));
                let step = Step::Commit(committer, allowance);
                make_plainly(&step, &mut after);
                return self.compare(&step, typed, &after);
            }
        };
        make_plainly(&Step::Rollback, &mut after);
        self.compare(&Step::Rollback, typed, &after);
    }

    fn turn_over(&mut self, at: usize, bits: u8) {
        self.typed[at] ^= bits;
        self.plain[at] ^= bits;
    }
}

// ---- what is thrown

/// Mostly a name that is there; sometimes one past them, or one that would be there if it were cut down to a byte.
fn some_name(dice: &mut Dice, names: u16) -> u16 {
    let name = dice.below(u64::from(names.max(1))) as u16;
    match dice.below(30) {
        0 => names,
        1 => name | 256,
        2 => 65535,
        _ => name,
    }
}

/// A name, as what is locked.
fn named(name: u16) -> Parts {
    (LOCKABLE_NAME, u64::from(name))
}

/// The packed table, as what is locked. The number beside it may be a name's, and is not looked at.
fn some_table(dice: &mut Dice, names: u16) -> Parts {
    let number = if dice.once_in(2) { u64::from(some_name(dice, names)) } else { dice.any() };
    (LOCKABLE_PACKED_TABLE, number)
}

/// Few objects, so that they meet; and the largest.
fn some_object(dice: &mut Dice) -> u64 {
    if dice.once_in(30) {
        u64::MAX
    } else {
        1 + dice.below(4)
    }
}

fn some_bytes(dice: &mut Dice) -> Vec<u8> {
    const ANY: &[u8] = b"refs/heads/HEAD_.-lock\0\xff";
    if dice.once_in(8) {
        return (0..dice.below(70)).map(|_| ANY[dice.below(ANY.len() as u64) as usize]).collect();
    }
    const GOOD: [&str; 14] = [
        "HEAD",
        "refs/heads/a",
        "refs/heads/b",
        "refs/heads/c",
        "refs/heads/d",
        "refs/tags/a",
        "ORIG_HEAD",
        "refs/bisect/x",
        "refs/notes/n",
        "refs/x",
        "refs/remotes/o/a",
        "refs/heads/a/e",
        "refs/x/y",
        "refs/x/y/z",
    ];
    const BAD: [&str; 5] = ["", "head", "refs/", "refs/a..b", "refs/a.lock"];
    let name = if dice.once_in(12) { BAD[dice.below(5) as usize] } else { GOOD[dice.below(14) as usize] };
    name.as_bytes().to_vec()
}

fn some_target(dice: &mut Dice, names: u16) -> Parts {
    if dice.once_in(3) {
        (2, u64::from(some_name(dice, names)))
    } else {
        (1, some_object(dice))
    }
}

fn some_edit(dice: &mut Dice, names: u16) -> Fields {
    let mut edit = Fields { update: !dice.once_in(3), name: some_name(dice, names), ..Fields::default() };
    edit.deref = dice.once_in(2);
    edit.log_only = dice.once_in(6);
    edit.expected = if dice.once_in(2) { 0 } else { dice.below(5) };
    if edit.expected >= 3 {
        edit.expected_target = some_target(dice, names);
    }
    if edit.update {
        edit.new = some_target(dice, names);
        edit.force = dice.once_in(4);
        edit.message = dice.below(65536) as u16;
    }
    edit
}

/// Mostly one edit, sometimes a few, and sometimes as many as a list holds.
pub fn some_edits(dice: &mut Dice, names: u16) -> Vec<Fields> {
    let count = match dice.below(40) {
        0 => 32,
        1..=12 => dice.below(6),
        _ => 1,
    };
    (0..count).map(|_| some_edit(dice, names)).collect()
}

fn some_prepare(dice: &mut Dice, names: u16) -> Step {
    Step::Prepare(some_edits(dice, names), 1 + dice.below(3))
}

/// Name 0 leads through a link or two to an object, or to nothing, and nobody holds what is on the way.
fn some_chain(dice: &mut Dice, names: u16) -> Vec<Step> {
    let hops = (1 + dice.below(2) as u16).min(names.saturating_sub(1));
    let end = if dice.once_in(4) { (0, 0) } else { (1, some_object(dice)) };
    let mut steps = vec![Step::Rollback, Step::LiftLock(some_table(dice, names)), Step::LoadLoose(hops, end)];
    for name in 0..=hops {
        steps.push(Step::LiftLock(named(name)));
        if name < hops {
            steps.push(Step::LoadLoose(name, (2, u64::from(name) + 1)));
        }
    }
    steps
}

fn some_edit_through(dice: &mut Dice, names: u16) -> Fields {
    let mut edit = some_edit(dice, names);
    edit.name = 0;
    edit.deref = true;
    if !dice.once_in(3) {
        (edit.expected, edit.expected_target) = (0, (0, 0));
    }
    edit
}

fn some_commit(dice: &mut Dice) -> (u16, u64) {
    let committer = if dice.once_in(6) { 0 } else { 1 + dice.below(65535) as u16 };
    (committer, if dice.once_in(2) { dice.below(6) } else { EVERY_WRITE })
}

fn some_load(dice: &mut Dice, names: u16) -> Step {
    let name = some_name(dice, names);
    match dice.below(6) {
        0 => Step::LoadLoose(name, (3, 0)),
        1 => Step::LoadLoose(name, (0, 0)),
        2 => Step::LoadPacked(name, 0),
        3 => Step::LoadPacked(name, some_object(dice)),
        _ => Step::LoadLoose(name, some_target(dice, names)),
    }
}

/// A record of either version; or of another, or cut.
fn some_record(dice: &mut Dice) -> Vec<u8> {
    let plan = Plan::new(dice.below(3), 1 + dice.below(3), 0).with(1 + dice.below(65535), b"planner");
    let mut record = written(1 + dice.below(2), &plan).unwrap();
    match dice.below(6) {
        0 => record[0] = 3,
        1 => record.truncate(dice.below(record.len() as u64) as usize),
        _ => (),
    }
    record
}

/// A text of few lines. Mostly it is sorted, and may be cut.
fn some_text(dice: &mut Dice) -> Vec<u8> {
    let mut names: Vec<_> = (0..dice.below(4)).map(|_| some_bytes(dice)).collect();
    if !dice.once_in(5) {
        names.retain(|name| name.starts_with(b"refs/") && is_name(name));
        names.sort();
        names.dedup();
    }
    let mut text: Vec<u8> = names.iter().flat_map(|name| ref_line(some_object(dice), name)).collect();
    if dice.once_in(8) {
        text.truncate(dice.below(text.len() as u64 + 1) as usize);
    }
    text
}

fn some_step_meanwhile(dice: &mut Dice, names: u16) -> Step {
    let name = some_name(dice, names);
    match dice.below(10) {
        0 => Step::AddName(some_bytes(dice)),
        1 if dice.once_in(3) => Step::PlaceLock(named(name)),
        2 => Step::LiftLock(named(name)),
        3 if dice.once_in(3) => Step::PlaceLock(some_table(dice, names)),
        4 => Step::LiftLock(some_table(dice, names)),
        5 => Step::NameBytes(name),
        6 => Step::ReadName(name),
        7 => Step::ReadLine(name, dice.below(4)),
        8 => Step::WritePacked(if dice.once_in(2) { 27_136 } else { dice.below(300) as usize }),
        _ => Step::ReadRow(dice.below(5)),
    }
}

fn some_step(dice: &mut Dice, names: u16) -> Step {
    match dice.below(20) {
        0 if dice.once_in(20) => Step::Start(dice.below(3)),
        1 if dice.once_in(10) => Step::StartWith(some_record(dice)),
        2 if dice.once_in(4) => Step::ReadPacked(some_text(dice)),
        0..=2 => some_load(dice, names),
        3 | 4 => some_prepare(dice, names),
        5 | 6 => {
            let (committer, allowance) = some_commit(dice);
            Step::Commit(committer, allowance)
        }
        7 => Step::Rollback,
        8 => Step::LiftLock(some_table(dice, names)),
        9 | 10 => Step::LiftLock(named(some_name(dice, names))),
        11 if names < 4 => Step::AddName(some_bytes(dice)),
        _ => some_step_meanwhile(dice, names),
    }
}

/// Now and then a bit of both regions is turned over before a call, and back where the call is refused.
pub fn all(calls: u64, seed: u64) {
    println!("same: {calls} turns, seed {seed}");
    let mut dice = Dice::new(seed);
    let mut pair = Pair::new();
    for _ in 0..calls {
        if dice.once_in(4) && Store::open(&mut pair.typed).is_ok() && pair.typed == pair.plain {
            pair.transaction(&mut dice);
            continue;
        }
        let bits = if dice.once_in(50) { 1 << dice.below(8) } else { 0 };
        let at = dice.below(REGION_SIZE as u64) as usize;
        pair.turn_over(at, bits);
        let step = some_step(&mut dice, pair.names);
        pair.step(&step);
        if bits != 0 && Store::open(&mut pair.typed).is_err() {
            pair.turn_over(at, bits);
        }
    }
    for number in NUMBERS {
        check(pair.numbers.contains_key(&number), &format!("number {number} was met"));
    }
    for (kind, &done) in pair.done.iter().enumerate() {
        check(done > calls / 2000, &format!("call {kind} was done {done} times"));
    }
    println!("same: places {:?}", pair.places);
    for call in ["read_name", "read_row"] {
        let met = (1..=5).filter(|&place| pair.places.contains_key(&(call, place)));
        check(met.count() == 5, &format!("each of the five places was met by {call}"));
    }
    for (what, count) in [("transactions", pair.transactions), ("children", pair.children), ("leaves", pair.leaves)] {
        println!("same: {count} {what}");
        check(count > calls / 50, &format!("{count} {what} were met"));
    }
}
