//! Where values are found: each loose value of a name, with a packed one and without, another name packed or not, and the packed table
//! locked by others or not; and lists that open the packed table in modes 2 and 3, only where something is packed, or never.

use crate::build::{delete, link, object, store, update};
use crate::case::{Case, Edit};

/// The first cannot be packed. The second has the values.
const NAMES: [&str; 3] = ["HEAD", "refs/heads/aisle", "refs/tags/v1"];

/// Hands out every case in a mode.
pub fn with(mode: u8, hand_out: &mut dyn FnMut(&Case)) {
    for case in stores() {
        for edits in lists() {
            hand_out(&Case { edits, mode, ..case.clone() });
        }
    }
}

fn stores() -> Vec<Case> {
    let empty = || store(1, &NAMES);
    let loose = [empty(), empty().broken(1), empty().loose(1, object(1)), empty().loose(1, link(0))];
    let packed = |case: Case| {
        let both = case.clone().packed(1, 2).packed(2, 3);
        [case.clone(), case.clone().packed(1, 2), case.packed(2, 3), both]
    };
    let linked = |case: Case| [case.clone(), case.loose(0, link(1))];
    let locked = |case: Case| [case.clone(), case.lock_packed()];
    loose.into_iter().flat_map(packed).flat_map(linked).flat_map(locked).collect()
}

/// Without edits too: the names are read all the same.
fn lists() -> Vec<Vec<Edit>> {
    let to_object = |name| update(name, object(7));
    let line = to_object(1).log_only();
    vec![
        vec![],
        vec![to_object(1)],
        vec![to_object(1).deref()],
        vec![update(1, link(0))],
        vec![delete(1)],
        vec![line],
        vec![delete(1).log_only()],
        vec![line, to_object(0)],
        vec![line, to_object(2)],
        vec![line, update(2, link(0))],
        vec![delete(1).log_only(), delete(2)],
        vec![to_object(0).deref()],
        vec![to_object(0).deref().log_only()],
        vec![delete(0).deref()],
    ]
}
