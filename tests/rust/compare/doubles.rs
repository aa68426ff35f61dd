//! Every pair of edits over three names, with fewer values.

use crate::case::{Case, Edit, End, Expected, Loose, State, Store, Target, ENOUGH};
use crate::product::{pairs, Parts};

/// Three names, each of which may link to the next.
pub const NAMES: [&str; 3] = ["HEAD", "refs/heads/aisle", "refs/tags/v1"];
/// The same, where one lies beneath another. Neither of the two gets a log.
pub const NESTED: [&str; 3] = ["HEAD", "refs/tags/a/b", "refs/tags/a"];
const ONE: Target = Target::Object(1);

/// Hands out every case.
pub fn each(hand_out: &mut dyn FnMut(&Case)) {
    with(NAMES, hand_out);
    with(NESTED, hand_out);
}

/// Hands out every case with these names, but for stores with a loose value beneath another.
pub fn with(names: [&str; 3], hand_out: &mut dyn FnMut(&Case)) {
    let expected = [Expected::Any, Expected::MustExistAndMatch(ONE)];
    let parts = Parts { news: &[ONE, Target::Link(2)], expected: &expected, forces: &[false] };
    let edits: Vec<Edit> = (0..3).flat_map(|name| parts.edits(name)).collect();
    for state in states() {
        let store = Store { state, ..Store::new(1, &names) };
        if store.has_nested_values() {
            continue;
        }
        for (first, second) in pairs(&edits, &edits) {
            for mode in [1, 2, 3] {
                let end = End::Commit { committer: 1, allowance: ENOUGH };
                hand_out(&Case { store: store.clone(), edits: vec![*first, *second], mode, end });
            }
        }
    }
}

/// Chains over the three names, objects, or nothing; and a packed table or none.
fn states() -> Vec<State> {
    let value = |target| Some(Loose::Value(target));
    let mut list = Vec::new();
    for head in [None, value(Target::Link(1)), value(ONE)] {
        for aisle in [None, value(Target::Link(2)), value(ONE)] {
            for (&tag, &packed) in pairs(&[None, value(ONE)], &[[None, None], [Some(2), Some(1)]]) {
                let packed = vec![None, packed[0], packed[1]];
                list.push(State { loose: vec![head, aisle, tag], packed, ..State::empty(3) });
            }
        }
    }
    list
}
