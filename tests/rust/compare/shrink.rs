//! Makes a case that differs smaller, as long as it still differs.

use crate::answer::Answer;
use crate::case::{Case, Change, Expected};
use crate::judge::{self, Care, Verdict};
use crate::site::Site;

/// The smallest case that the steps below lead to, with the Rust's answer and the difference.
pub fn smallest(site: &Site, case: &Case) -> (Case, Answer, String) {
    let (mut best, mut difference) = (case.clone(), differs(site, case));
    while let Some((smaller, found)) = step(site, &best) {
        (best, difference) = (smaller, Some(found));
    }
    let (rust, _) = judge::judge(site, &best, Care::Stops);
    (
        best,
        rust,
        difference.unwrap_or_else(|| "it differs only in a stop that was run, or after another transaction".to_owned()),
    )
}

fn differs(site: &Site, case: &Case) -> Option<String> {
    match judge::judge(site, case, Care::Reads).1 {
        Verdict::Differs(text) => Some(text),
        _ => None,
    }
}

fn step(site: &Site, case: &Case) -> Option<(Case, String)> {
    smaller(case)
        .into_iter()
        .filter(|smaller| smaller != case)
        .find_map(|smaller| differs(site, &smaller).map(|text| (smaller, text)))
}

/// Cases that are smaller by one thing.
fn smaller(case: &Case) -> Vec<Case> {
    let mut list = Vec::new();
    let mut with = |change: &dyn Fn(&mut Case)| {
        let mut smaller = case.clone();
        change(&mut smaller);
        list.push(smaller);
    };
    for place in 0..case.edits.len() {
        with(&|case| {
            case.edits.remove(place);
        });
        with(&|case| case.edits[place].deref = false);
        with(&|case| case.edits[place].log_only = false);
        with(&|case| case.edits[place].expected = Expected::Any);
        with(&|case| {
            if let Change::Update { force, message, .. } = &mut case.edits[place].change {
                (*force, *message) = (false, 0);
            }
        });
    }
    for place in 0..case.store.state.lines.len() {
        with(&|case| {
            case.store.state.lines.remove(place);
        });
    }
    for name in 0..case.store.names.len() {
        with(&|case| case.store.state.loose[name] = None);
        with(&|case| case.store.state.packed[name] = None);
        with(&|case| case.store.state.locks[name] = false);
    }
    with(&|case| case.store.state.packed_lock = false);
    if !case.store.names.is_empty() {
        with(&drop_last_name);
    }
    list
}

/// Drops the last name, if nothing speaks of it.
fn drop_last_name(case: &mut Case) {
    let last = case.store.names.len() - 1;
    let state = &case.store.state;
    let idle = state.loose[last].is_none() && state.packed[last].is_none() && !state.locks[last];
    let spoken_of = format!("{:?} {:?}", state.loose, case.edits).contains(&format!("Link({last})"))
        || case.edits.iter().any(|edit| edit.name == last)
        || state.lines.iter().any(|line| line.name == last);
    if idle && !spoken_of {
        case.store.names.pop();
        case.store.state.loose.pop();
        case.store.state.packed.pop();
        case.store.state.locks.pop();
    }
}
