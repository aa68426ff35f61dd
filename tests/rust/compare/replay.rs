//! Replays recorded cases on the archive alone: each block is read, run through calls, and written again from what the archive
//! answers. It must come out as it was.

use crate::answer::{Answer, Prepared, Reply, Row};
use crate::archive::{self, Reported};
use crate::case::{Case, Change, Edit, End, Expected, Line, Loose, State, Store, Target};
use crate::image;
use crate::tally::Tally;
use crate::text;
use std::time::Instant;

pub fn replay(file: &str) -> Tally {
    let (mut tally, began) = (Tally::default(), Instant::now());
    let recorded = std::fs::read_to_string(file).unwrap_or_default();
    let (first, rest) = recorded.split_once('\n').unwrap_or_default();
    let blocks: Vec<&str> = rest.split_inclusive("\nend\n").collect();
    tally.check(first == format!("cases {}", blocks.len()), "the file does not have as many cases as it says");
    for (place, block) in blocks.iter().enumerate() {
        let about = block.strip_prefix("# ").and_then(|rest| rest.split_once('\n')).map_or("", |(about, _)| about);
        let case = parse(block);
        let again = text::block(place, about, &case, &answer(&case));
        tally.check(again == *block, &format!("the archive answers otherwise:\n{block}it says:\n{again}"));
    }
    tally.report(&format!("replay of {file}"), began);
    tally
}

/// What the archive answers to a case whose store is made by calls.
pub fn answer(case: &Case) -> Answer {
    let mut region = archive::by_calls(&case.store).expect("calls can make the store of a recorded case");
    let reply = reply(archive::prepare(&mut region, &case.edits, case.mode));
    if reply.number != 0 {
        return Answer::refused(reply);
    }
    let rows = (0..reply.places[0] as usize).map(|place| row(archive::read_row(&region, place))).collect();
    let names = case.store.names.len();
    let ours = (0..names).map(|name| image::lock(&region, name) == 2).collect();
    let ours_packed = image::packed_lock(&region) == 2;
    let end = self::reply(archive::end(&mut region, case));
    let after = image::decode_state(&region, names);
    Answer { reply, turn: None, prepared: Some(Prepared { rows, ours, ours_packed, end, steps: Vec::new(), after }) }
}

fn reply(reported: Reported) -> Reply {
    Reply::new(reported.number, &reported.places[..5])
}

fn row(reported: Reported) -> Row {
    let mut row = [0; 13];
    row.copy_from_slice(&reported.places[..13]);
    row
}

/// The case of a block. Lines of the answer are passed over.
fn parse(block: &str) -> Case {
    let mut case =
        Case { store: Store::default(), edits: Vec::new(), mode: 0, end: End::Commit { committer: 0, allowance: 0 } };
    for line in block.lines().filter(|line| !line.starts_with('#')) {
        let (word, fields) = line.split_once(' ').unwrap_or((line, ""));
        if word == "name" {
            case.store.names.push(fields.to_owned());
            let State { loose, packed, locks, .. } = &mut case.store.state;
            (loose.push(None), packed.push(None), locks.push(false));
            continue;
        }
        let fields: Vec<u64> = fields.split_whitespace().map(|field| field.parse().expect("a number")).collect();
        parse_line(&mut case, word, &fields);
    }
    case
}

fn parse_line(case: &mut Case, word: &str, fields: &[u64]) {
    let state = &mut case.store.state;
    match (word, fields) {
        ("setting", [setting]) => case.store.setting = *setting as u8,
        ("loose", [name, 3, 0]) => state.loose[*name as usize] = Some(Loose::Broken),
        ("loose", [name, kind, number]) => state.loose[*name as usize] = target(*kind, *number).map(Loose::Value),
        ("packed", [name, object]) => state.packed[*name as usize] = Some(*object),
        ("line", [name, previous, new, committer, message]) => state.lines.push(Line {
            name: *name as usize,
            previous: *previous,
            new: *new,
            committer: *committer as u16,
            message: *message as u16,
        }),
        ("lock", [name]) => state.locks[*name as usize] = true,
        ("lockpacked", []) => state.packed_lock = true,
        ("edit", fields) => case.edits.push(parse_edit(fields)),
        ("prepare", [mode]) => case.mode = *mode as u8,
        ("commit", [committer, allowance]) => {
            case.end = End::Commit { committer: *committer as u16, allowance: *allowance };
        }
        ("rollback", []) => case.end = End::Rollback,
        ("case" | "answer" | "row" | "ours" | "ourspacked" | "nowloose" | "nowpacked" | "nowline" | "end", _) => {}
        _ => panic!("there is no such line: {word} {fields:?}"),
    }
}

fn parse_edit(fields: &[u64]) -> Edit {
    let [kind, deref, log_only, force, expected, expected_kind, expected_number, new_kind, new_number, name, message] = *fields
    else {
        panic!("an edit has eleven fields")
    };
    let change = match target(new_kind, new_number) {
        Some(new) if kind == 1 => Change::Update { new, force: force == 1, message: message as u16 },
        _ => Change::Delete,
    };
    let expected = match (expected, target(expected_kind, expected_number)) {
        (1, _) => Expected::MustExist,
        (2, _) => Expected::MustNotExist,
        (3, Some(target)) => Expected::MustExistAndMatch(target),
        (4, Some(target)) => Expected::ExistingMustMatch(target),
        _ => Expected::Any,
    };
    Edit { name: name as usize, change, deref: deref == 1, log_only: log_only == 1, expected }
}

fn target(kind: u64, number: u64) -> Option<Target> {
    match kind {
        1 => Some(Target::Object(number)),
        2 => Some(Target::Link(number as usize)),
        _ => None,
    }
}
