//! Every case of one edit over two names, in three families that are not crossed with one another: values, locks, logs. Each has more
//! values of its own than the product of all (`crossed`).

use crate::case::{packable, Case, Edit, End, Expected, Line, Loose, State, Store, Target, ENOUGH};
use crate::product::{expectations, pairs, Parts, NESTED};

/// The edited name and another one, which it may link to.
pub const NAMES: [[&str; 2]; 4] = [
    ["HEAD", "refs/heads/aisle"],
    ["refs/heads/aisle", "refs/tags/v1"],
    ["refs/tags/v1", "HEAD"],
    ["refs/bisect/bad", "FETCH_HEAD"],
];

const ONE: Target = Target::Object(1);
const TWO: Target = Target::Object(2);
const OTHER: Target = Target::Link(1);
const ITSELF: Target = Target::Link(0);

/// Hands out every case.
pub fn each(hand_out: &mut dyn FnMut(&Case)) {
    for names in NAMES.into_iter().chain(NESTED) {
        with(names, hand_out);
    }
}

/// Hands out every case with these names, but for stores with a loose value beneath another.
pub fn with(names: [&str; 2], hand_out: &mut dyn FnMut(&Case)) {
    values(names, hand_out);
    locks(names, hand_out);
    logs(names, hand_out);
}

/// Loose values of the edited name, and of the other one.
fn looses() -> ([Option<Loose>; 6], [Option<Loose>; 4]) {
    let value = |target| Some(Loose::Value(target));
    let edited = [None, value(ONE), value(TWO), value(OTHER), value(ITSELF), Some(Loose::Broken)];
    (edited, [None, value(ONE), value(ITSELF), Some(Loose::Broken)])
}

/// The states with every loose value and these packed ones, as far as the names can be packed.
fn states(names: [&str; 2], packed: &[[Option<u64>; 2]]) -> Vec<State> {
    let (edited, other) = looses();
    let fits = |packed: &&[Option<u64>; 2]| names.iter().zip(*packed).all(|(name, value)| value.is_none() || packable(name));
    let mut list = Vec::new();
    for (&first, &second) in pairs(&edited, &other) {
        for packed in packed.iter().filter(fits) {
            list.push(State { loose: vec![first, second], packed: packed.to_vec(), ..State::empty(2) });
        }
    }
    list
}

fn hand(names: [&str; 2], setting: u8, state: &State, edit: &Edit, committer: u16, hand_out: &mut dyn FnMut(&Case)) {
    for mode in [1, 2, 3] {
        let store = Store { state: state.clone(), ..Store::new(setting, &names) };
        if store.has_nested_values() {
            return;
        }
        hand_out(&Case { store, edits: vec![*edit], mode, end: End::Commit { committer, allowance: ENOUGH } });
    }
}

/// Every value of both names, every expectation, every target.
fn values(names: [&str; 2], hand_out: &mut dyn FnMut(&Case)) {
    let packed = [[None, None], [Some(1), None], [Some(2), None], [None, Some(1)], [Some(1), Some(1)], [Some(2), Some(1)]];
    let parts = Parts { news: &[ONE, TWO, OTHER, ITSELF], expected: &expectations(&[ONE, TWO, OTHER]), forces: &[false] };
    let edits = parts.edits(0);
    for state in states(names, &packed) {
        for edit in &edits {
            hand(names, 1, &state, edit, 1, hand_out);
        }
    }
}

/// Foreign locks on either name, on both, and on the packed table.
fn locks(names: [&str; 2], hand_out: &mut dyn FnMut(&Case)) {
    let packed = [[None, None], [Some(1), None], [None, Some(2)]];
    let expected = [Expected::Any, Expected::MustExist, Expected::MustNotExist, Expected::MustExistAndMatch(ONE)];
    let edits = Parts { news: &[ONE, OTHER], expected: &expected, forces: &[false] }.edits(0);
    for mut state in states(names, &packed) {
        for (first, second, table) in [(true, false, false), (false, true, false), (true, true, true), (false, false, true)] {
            (state.locks, state.packed_lock) = (vec![first, second], table);
            for edit in &edits {
                hand(names, 1, &state, edit, 1, hand_out);
            }
        }
    }
}

/// Every setting, logs that are there already, force, and no committer.
fn logs(names: [&str; 2], hand_out: &mut dyn FnMut(&Case)) {
    let expected =
        [Expected::Any, Expected::MustExistAndMatch(ONE), Expected::ExistingMustMatch(ONE), Expected::ExistingMustMatch(TWO)];
    let edits = Parts { news: &[ONE, TWO, OTHER], expected: &expected, forces: &[false, true] }.edits(0);
    let line = |name| Line { name, previous: 0, new: 5, committer: 9, message: 8 };
    let lines = [vec![], vec![line(0)], vec![line(1)], vec![line(1), line(0), line(1)]];
    for mut state in states(names, &[[None, None], [None, Some(1)]]) {
        for lines in &lines {
            state.lines.clone_from(lines);
            for (&setting, &committer) in pairs(&[0, 1, 2], &[1, 0]) {
                for edit in &edits {
                    hand(names, setting, &state, edit, committer, hand_out);
                }
            }
        }
    }
}
