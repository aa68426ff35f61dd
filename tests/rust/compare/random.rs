//! Random cases: up to 32 edits and 20 names (40 now and then, so that 32 edits can have names of their own), chains of links,
//! every mode and setting, foreign locks, logs that are there already. In two of five cases most names lie beneath others.

use crate::case::{packable, Case, Change, Edit, End, Expected, Line, Loose, State, Store, Target, ENOUGH};
use crate::dice::Dice;

/// Names of every kind that the rules tell apart. None lies beneath another.
const NAMES: [&str; 22] = [
    "HEAD",
    "FETCH_HEAD",
    "ORIG_HEAD",
    "A_B",
    "refs/heads/aisle",
    "refs/heads/bay",
    "refs/heads/feature/one",
    "refs/heads/feature/two",
    "refs/heads/HEAD",
    "refs/tags/v1.0",
    "refs/tags/HEAD",
    "refs/remotes/origin/main",
    "refs/remotes/origin/HEAD",
    "refs/notes/commits",
    "refs/bisect/good",
    "refs/bisect/bad",
    "refs/worktree/own",
    "refs/rewritten/label",
    "refs/stash",
    "refs/a./b",
    "refs/headset/x",
    "refs/bisection",
];

/// Names above and beneath each other, and two that only begin alike. Some lie above names of the other list too. The first ones are near
/// to each other.
const NESTED: [&str; 16] = [
    "refs/heads/n",
    "refs/heads/n/m",
    "refs/heads/n/m/k",
    "refs/heads/n/l",
    "refs/heads/nm",
    "refs/heads/n.m/k",
    "refs/heads",
    "refs/heads/feature",
    "refs/heads/aisle/end",
    "refs/bisect",
    "refs/bisect/bad/x",
    "refs/worktree/own/x",
    "refs/tags/v1.0/x",
    "refs/remotes/HEAD",
    "refs/remotes/HEAD/HEAD",
    "refs/remotes/origin",
];

const NEAR: usize = 7;

const OBJECTS: [u64; 5] = [1, 2, 3, 7, u64::MAX];

pub fn case(dice: &mut Dice) -> Case {
    let nested = dice.percent(40);
    let names = names(dice, nested);
    let texts: Vec<&str> = names.iter().map(String::as_str).collect();
    let mut store = Store::new(dice.pick(&[0, 1, 1, 1, 2, 2]), &texts);
    // A value stands in the way of all names beneath it, so that with many of them most rows are refused.
    let absent = if nested { dice.pick(&[40, 70, 85, 95]) } else { 40 };
    let logs = if nested { dice.pick(&[0, 0, 0, 10, 30]) } else { dice.pick(&[0, 0, 10, 50]) };
    fill(dice, &mut store, absent, logs);
    with_edits(dice, store)
}

/// A transaction on what another case left.
pub fn next(dice: &mut Dice, first: &Case, left: State) -> Case {
    with_edits(dice, Store { state: left, ..first.store.clone() })
}

fn with_edits(dice: &mut Dice, store: Store) -> Case {
    let edits = edits(dice, &store);
    let committer = if dice.percent(6) { 0 } else { dice.pick(&[1, 7, 65_535]) };
    let end = if dice.percent(4) { End::Rollback } else { End::Commit { committer, allowance: ENOUGH } };
    Case { store, edits, mode: dice.pick(&[1, 2, 3]), end }
}

fn names(dice: &mut Dice, nested: bool) -> Vec<String> {
    let mut pool: Vec<String> = NAMES.iter().map(|name| name.to_string()).collect();
    let mut most = 20;
    if nested {
        let near = dice.percent(50);
        dice.shuffle(&mut pool);
        pool.truncate(if near { 2 } else { 8 });
        pool.extend(NESTED.iter().take(if near { NEAR } else { NESTED.len() }).map(|name| name.to_string()));
    } else if dice.percent(16) {
        pool.extend((0..18).map(|number| format!("refs/heads/many{number}")));
        most = 40;
    }
    dice.shuffle(&mut pool);
    let few = if nested { 2 } else { 1 };
    pool.truncate(if dice.percent(50) { few + dice.below(5) } else { few + dice.below(most) });
    pool
}

fn fill(dice: &mut Dice, store: &mut Store, absent: usize, logs: usize) {
    let count = store.names.len();
    let (links, packs) = (dice.pick(&[0, 15, 40]), dice.pick(&[0, 0, 20, 60]));
    let locks = if dice.percent(12) { 10 } else { 0 };
    for name in 0..count {
        store.state.loose[name] = loose(dice, count, links, absent);
        if dice.percent(packs) && packable(&store.names[name]) {
            store.state.packed[name] = Some(dice.pick(&OBJECTS));
        }
        store.state.locks[name] = dice.percent(locks);
    }
    if dice.percent(25) {
        chain(dice, store);
    }
    thin_out(dice, store);
    store.state.packed_lock = dice.percent(4);
    for _ in 0..count {
        if dice.percent(logs) {
            let line = line(dice, count);
            store.state.lines.push(line);
        }
    }
}

fn loose(dice: &mut Dice, names: usize, links: usize, absent: usize) -> Option<Loose> {
    if dice.percent(links) {
        return Some(Loose::Value(Target::Link(dice.below(names))));
    }
    if dice.percent(absent) {
        return None;
    }
    match dice.below(12) {
        0 => Some(Loose::Broken),
        _ => Some(Loose::Value(Target::Object(dice.pick(&OBJECTS)))),
    }
}

/// Takes loose values away, until none stands beneath another.
fn thin_out(dice: &mut Dice, store: &mut Store) {
    let mut order: Vec<usize> = (0..store.names.len()).collect();
    dice.shuffle(&mut order);
    for name in order {
        if (0..store.names.len()).any(|other| store.state.loose[other].is_some() && store.nest(name, other)) {
            store.state.loose[name] = None;
        }
    }
}

/// Links one to five names, each to the next.
fn chain(dice: &mut Dice, store: &mut Store) {
    let mut order: Vec<usize> = (0..store.names.len()).collect();
    dice.shuffle(&mut order);
    let hops = 1 + dice.below(5);
    for pair in order.windows(2).take(hops) {
        store.state.loose[pair[0]] = Some(Loose::Value(Target::Link(pair[1])));
    }
}

fn line(dice: &mut Dice, names: usize) -> Line {
    let new = dice.pick(&OBJECTS);
    let previous = dice.pick(&[0, 0, 1, 2, 3]);
    let previous = if previous == new { 0 } else { previous };
    Line { name: dice.below(names), previous, new, committer: dice.pick(&[1, 2, 65_535]), message: dice.pick(&[0, 9, 65_535]) }
}

/// Edits of names that are mostly different, so that many lists are not refused as duplicates.
fn edits(dice: &mut Dice, store: &Store) -> Vec<Edit> {
    let mut order: Vec<usize> = (0..store.names.len()).collect();
    dice.shuffle(&mut order);
    let most = if dice.percent(70) { 4 } else { 33 };
    let wanted = dice.below(most);
    let distinct = !dice.percent(8);
    let count = if distinct { wanted.min(order.len()) } else { wanted };
    let derefs = dice.pick(&[0, 20, 60, 100]);
    let wrong = dice.pick(&[0, 0, 5, 40]);
    (0..count)
        .map(|place| {
            let name = if distinct { order[place] } else { dice.below(store.names.len()) };
            edit(dice, store, name, derefs, wrong)
        })
        .collect()
}

fn edit(dice: &mut Dice, store: &Store, name: usize, derefs: usize, wrong: usize) -> Edit {
    let deref = dice.percent(derefs);
    let delete = dice.percent(35);
    let change = match delete {
        true => Change::Delete,
        false => Change::Update { new: target(dice, store), force: dice.percent(20), message: dice.pick(&[0, 3, 65_535]) },
    };
    // With deref set an update's expected value is judged at the end of the links, a delete's at each of them.
    let judged = if deref && !delete { leaf(store, name) } else { name };
    let expected = match dice.percent(wrong) {
        true => any_expected(dice, store),
        false => right_expected(dice, store, judged, delete),
    };
    Edit { name, change, deref, log_only: dice.percent(15), expected }
}

fn target(dice: &mut Dice, store: &Store) -> Target {
    match dice.percent(25) {
        true => Target::Link(dice.below(store.names.len())),
        false => Target::Object(dice.pick(&OBJECTS)),
    }
}

fn leaf(store: &Store, mut name: usize) -> usize {
    for _ in 0..5 {
        match store.state.loose[name] {
            Some(Loose::Value(Target::Link(next))) => name = next,
            _ => break,
        }
    }
    name
}

fn any_expected(dice: &mut Dice, store: &Store) -> Expected {
    match dice.below(5) {
        0 => Expected::Any,
        1 => Expected::MustExist,
        2 => Expected::MustNotExist,
        3 => Expected::MustExistAndMatch(target(dice, store)),
        _ => Expected::ExistingMustMatch(target(dice, store)),
    }
}

/// An expected value that mostly passes.
fn right_expected(dice: &mut Dice, store: &Store, name: usize, delete: bool) -> Expected {
    match (store.state.read(name), dice.below(4)) {
        (_, 0) => Expected::Any,
        (Some(_), 1) => Expected::MustExist,
        (Some(found), 2) => Expected::MustExistAndMatch(found),
        (Some(found), _) => Expected::ExistingMustMatch(found),
        (None, 1) if !delete => Expected::MustNotExist,
        (None, _) => Expected::ExistingMustMatch(target(dice, store)),
    }
}
