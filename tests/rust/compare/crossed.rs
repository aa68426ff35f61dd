//! Every case of one edit over two names as one product: each member of each list below meets each member of all the others. What the
//! lists leave out is in `singles`: objects, packed values and name pairs, force, lines that are there, no committer.

use crate::case::{packable, Case, End, Loose, State, Store, Target, ENOUGH};
use crate::product::{expectations, pairs, Parts};

/// The edited name and the other one. Of the first two only the other can be packed, of the second both can.
pub const NAMES: [[&str; 2]; 2] = [["HEAD", "refs/heads/aisle"], ["refs/heads/aisle", "refs/tags/v1"]];

const SETTINGS: [u8; 3] = [0, 1, 2];
const MODES: [u8; 3] = [1, 2, 3];

const ONE: Target = Target::Object(1);
const TWO: Target = Target::Object(2);
const OTHER: Target = Target::Link(1);
const ITSELF: Target = Target::Link(0);

/// Hands out every case with these names, but for stores with a loose value beneath another.
pub fn with(names: [&str; 2], hand_out: &mut dyn FnMut(&Case)) {
    for state in states(names) {
        for (&setting, &mode) in pairs(&SETTINGS, &MODES) {
            let store = Store { state: state.clone(), ..Store::new(setting, &names) };
            if store.has_nested_values() {
                continue;
            }
            let end = End::Commit { committer: 1, allowance: ENOUGH };
            edits(Case { store, edits: Vec::new(), mode, end }, hand_out);
        }
    }
}

/// Updates to an object, to another and to a link, and deletes; every expected value, with an object, another and a link; with
/// and without deref; log-only or not.
fn edits(mut case: Case, hand_out: &mut dyn FnMut(&Case)) {
    let parts = Parts { news: &[ONE, TWO, OTHER], expected: &expectations(&[ONE, TWO, OTHER]), forces: &[false] };
    for edit in parts.edits(0) {
        case.edits = vec![edit];
        hand_out(&case);
    }
}

/// Loose values, links from each name to the other among them, packed values, and foreign locks. A name's packed object is not
/// its loose one, so that they cannot be taken for each other.
fn states(names: [&str; 2]) -> Vec<State> {
    let value = |target| Some(Loose::Value(target));
    let edited = [None, value(ONE), value(OTHER), Some(Loose::Broken)];
    let other = [None, value(ONE), value(ITSELF)];
    let mut list = Vec::new();
    for (&first, &second) in pairs(&edited, &other) {
        for (&packed, &other_packed) in pairs(packed_values(names[0]), packed_values(names[1])) {
            let state = State { loose: vec![first, second], packed: vec![packed, other_packed], ..State::empty(2) };
            list.extend((0..8).map(|locks| locked(state.clone(), locks)));
        }
    }
    list
}

fn packed_values(name: &str) -> &'static [Option<u64>] {
    match packable(name) {
        true => &[None, Some(2)],
        false => &[None],
    }
}

/// The state with one of the eight combinations of three foreign locks: the edited name's, the other's, the packed table's.
fn locked(mut state: State, locks: u8) -> State {
    state.locks = vec![locks & 1 != 0, locks & 2 != 0];
    state.packed_lock = locks & 4 != 0;
    state
}
