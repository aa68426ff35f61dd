//! The known differences, as predicates written from docs/DIFFERENCES.md; 9 and 10 are in `conflicts`. Outside of them nothing may differ.

use crate::answer::{Answer, Prepared, Row, NOT_LOGGED, NOT_PLACED, NOT_REMOVED, NO_LAYOUT};
use crate::case::{beneath, packable, Case, Edit, End, Loose, Store, Target};

/// How far a case had come when the two sides differed.
#[derive(Clone, Copy, PartialEq, Eq, PartialOrd, Ord, Debug)]
pub enum Stage {
    /// In what prepare answers, or in the rows.
    Prepare,
    /// In the locks that are kept.
    Locks,
    /// In how the transaction ended.
    End,
}

/// Whether difference 1 explains why the sides differ at a stage. That is so only in a commit that was stopped: in others the
/// difference is put right before (`mended`), and nothing may be left of it.
pub fn is_stop_of_1(case: &Case, rust: &Answer, stage: Stage) -> bool {
    stage > Stage::Prepare && rust.prepared.as_ref().is_some_and(|prepared| stopped_in_mode_3(case, prepared))
}

/// 2: whether an edit comes to a name that is short for a link.
pub fn meets_2(case: &Case) -> bool {
    case.edits.iter().any(|edit| found_by_partial_name(case, edit))
}

/// 11 to 13: the number of the difference by which the Rust's commit failed, or by which the store cannot be laid out. The files are
/// looked at as they were when it failed.
pub fn of_files(case: &Case, rust: &Answer) -> Option<usize> {
    let store = &case.store;
    let Some(prepared) = &rust.prepared else {
        return (rust.reply.number == NO_LAYOUT && has_nested_logs(store)).then_some(13);
    };
    let (name, state) = (prepared.end.places[1] as usize, &prepared.after);
    let value_beneath = || store.beneath(name).any(|lower| state.loose[lower].is_some());
    let lock_beneath = || store.beneath(name).any(|lower| state.locks[lower] || prepared.ours[lower]);
    let log_beside = || state.lines.iter().any(|line| store.nest(line.name, name));
    match prepared.end.number {
        NOT_REMOVED if value_beneath() => Some(11),
        NOT_REMOVED | NOT_PLACED if lock_beneath() && !value_beneath() => Some(12),
        NOT_LOGGED if log_beside() => Some(13),
        _ => None,
    }
}

/// Whether of two names with logs one lies beneath the other, but not so with loose values.
fn has_nested_logs(store: &Store) -> bool {
    let lines = &store.state.lines;
    !store.has_nested_values() && lines.iter().any(|one| lines.iter().any(|other| store.nest(one.name, other.name)))
}

/// Whether of all names one lies beneath another.
pub fn has_nested_names(case: &Case) -> bool {
    (0..case.store.names.len()).any(|name| case.store.beneath(name).next().is_some())
}

/// The case with names that do not nest: each that has another beneath it ends with `-` more. All else is told by number, and a name
/// stays of its kind and in its order, since no byte of a name is less than `-`.
pub fn renamed(case: &Case) -> Case {
    let (mut renamed, names) = (case.clone(), &case.store.names);
    for name in &mut renamed.store.names {
        if names.iter().any(|other| beneath(other, name)) {
            name.push('-');
            assert!(!names.contains(name), "{name} is there already");
        }
    }
    renamed
}

/// The case as far as prepare goes, which looks at no log.
pub fn prepare_alone(case: &Case) -> Case {
    let mut alone = Case { end: End::Rollback, ..case.clone() };
    alone.store.state.lines.clear();
    alone
}

/// 1, where the commit was stopped, or would be if it wrote what it loses.
fn stopped_in_mode_3(case: &Case, prepared: &Prepared) -> bool {
    let End::Commit { allowance, .. } = case.end else { return false };
    let due = prepared.steps.len() as u64 + prepared.rows.len() as u64;
    let stopped = matches!(prepared.end.number, 16 | 17) || prepared.end.number == 0 && due > allowance;
    stopped && meets_1(case, prepared)
}

/// Whether a row is one of difference 1.
pub fn meets_1(case: &Case, prepared: &Prepared) -> bool {
    prepared.rows.iter().any(|row| direct_and_unpackable(case, row))
}

/// 1: in mode 3 a row updates a name that cannot be packed to an object. A log-only row is of that kind only if nothing changes:
/// then its lock is kept.
pub fn direct_and_unpackable(case: &Case, row: &Row) -> bool {
    let [name, kind, log_only, _, _, _, _, _, new_kind, ..] = *row;
    let update_to_object = kind == 1 && new_kind == 1;
    case.mode == 3 && update_to_object && !packable(&case.store.names[name as usize]) && (log_only == 0 || unchanged(row))
}

/// Whether a row's new target is there already.
pub fn unchanged(row: &Row) -> bool {
    let [_, _, _, _, _, expected, expected_kind, expected_number, new_kind, new_number, ..] = *row;
    expected == 3 && (expected_kind, expected_number) == (new_kind, new_number)
}

/// 2: an edit with deref set leads to a name outside of `refs/` that has no loose value, and one of the names that it is
/// short for is a link.
fn found_by_partial_name(case: &Case, edit: &Edit) -> bool {
    let store = &case.store;
    let name = links_from(case, edit.name).last().copied().unwrap_or(edit.name);
    let short = &store.names[name];
    let is_link = |full: String| {
        let found = store.names.iter().position(|known| *known == full);
        found.is_some_and(|found| matches!(store.state.loose[found], Some(Loose::Value(Target::Link(_)))))
    };
    edit.deref && store.state.loose[name].is_none() && longer_names(short).into_iter().any(is_link)
}

/// The names that a name is short for. One beneath `refs/` is short for none.
fn longer_names(short: &str) -> Vec<String> {
    if short.starts_with("refs/") {
        return Vec::new();
    }
    let mut names = ["refs/", "refs/tags/", "refs/heads/", "refs/remotes/"].map(|prefix| format!("{prefix}{short}")).to_vec();
    names.push(format!("refs/remotes/{short}/HEAD"));
    names
}

/// The names that the links from a name lead to, as far as they are followed.
fn links_from(case: &Case, mut name: usize) -> Vec<usize> {
    let mut list = Vec::new();
    while let (Some(Loose::Value(Target::Link(next))), true) = (case.store.state.loose[name], list.len() < 5) {
        list.push(next);
        name = next;
    }
    list
}
