//! A case and its answer as text: tests/rust/FORMAT.md.

use crate::answer::{Answer, Prepared, Reply};
use crate::case::{Case, Change, Edit, End, Line, Loose, State, Store, Target};
use std::fmt::Write;

/// The block of a case, without its answer.
pub fn case(case: &Case) -> String {
    let mut text = String::new();
    put_store(&mut text, &case.store);
    for edit in &case.edits {
        put(&mut text, "edit", &edit_fields(edit));
    }
    put(&mut text, "prepare", &[case.mode.into()]);
    text
}

/// The block of a case with its answer.
pub fn block(place: usize, about: &str, given: &Case, answer: &Answer) -> String {
    let mut text = String::new();
    if !about.is_empty() {
        writeln!(text, "# {about}").expect("text can be written");
    }
    put(&mut text, "case", &[place as u64]);
    text.push_str(&case(given));
    put_reply(&mut text, &answer.reply);
    if let Some(prepared) = &answer.prepared {
        put_prepared(&mut text, given, prepared);
    }
    text.push_str("end\n");
    text
}

fn put_store(text: &mut String, store: &Store) {
    put(text, "setting", &[store.setting.into()]);
    for name in &store.names {
        writeln!(text, "name {name}").expect("text can be written");
    }
    put_state(text, ["loose", "packed", "line"], &store.state);
    for name in places(&store.state.locks) {
        put(text, "lock", &[name]);
    }
    if store.state.packed_lock {
        put(text, "lockpacked", &[]);
    }
}

fn put_state(text: &mut String, [loose, packed, line]: [&str; 3], state: &State) {
    for (name, value) in state.loose.iter().enumerate().filter(|(_, value)| value.is_some()) {
        let [kind, number] = Loose::numbers(*value);
        put(text, loose, &[name as u64, kind, number]);
    }
    for (name, value) in state.packed.iter().enumerate() {
        if let Some(object) = value {
            put(text, packed, &[name as u64, *object]);
        }
    }
    for Line { name, previous, new, committer, message } in &state.lines {
        put(text, line, &[*name as u64, *previous, *new, (*committer).into(), (*message).into()]);
    }
}

fn edit_fields(edit: &Edit) -> [u64; 11] {
    let (kind, new, force, message) = match edit.change {
        Change::Update { new, force, message } => (1, Some(new), force, message),
        Change::Delete => (2, None, false, 0),
    };
    let (expected, target) = edit.expected.parts();
    let [expected_kind, expected_number] = Target::numbers(target);
    let [new_kind, new_number] = Target::numbers(new);
    [
        kind,
        edit.deref.into(),
        edit.log_only.into(),
        force.into(),
        expected,
        expected_kind,
        expected_number,
        new_kind,
        new_number,
        edit.name as u64,
        message.into(),
    ]
}

fn put_prepared(text: &mut String, case: &Case, prepared: &Prepared) {
    for row in &prepared.rows {
        put(text, "row", row);
    }
    for name in places(&prepared.ours) {
        put(text, "ours", &[name]);
    }
    if prepared.ours_packed {
        put(text, "ourspacked", &[]);
    }
    match case.end {
        End::Commit { committer, allowance } => put(text, "commit", &[committer.into(), allowance]),
        End::Rollback => put(text, "rollback", &[]),
    }
    put_reply(text, &prepared.end);
    put_state(text, ["nowloose", "nowpacked", "nowline"], &prepared.after);
}

fn put_reply(text: &mut String, reply: &Reply) {
    let [a, b, c, d, e] = reply.places;
    put(text, "answer", &[reply.number.into(), a, b, c, d, e]);
}

fn places(set: &[bool]) -> impl Iterator<Item = u64> + '_ {
    set.iter().enumerate().filter(|(_, member)| **member).map(|(place, _)| place as u64)
}

fn put(text: &mut String, word: &str, fields: &[u64]) {
    text.push_str(word);
    for field in fields {
        write!(text, " {field}").expect("text can be written");
    }
    text.push('\n');
}
