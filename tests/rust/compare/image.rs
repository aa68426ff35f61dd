//! The bytes that stand for a store, written from docs/LAYOUT.md alone, and the bytes of an edit list, from docs/SPEC.md.

use crate::answer::Row;
use crate::case::{Change, Edit, Line, Loose, State, Store, Target};

pub const SIZE: usize = 49_549;

const NAMES: usize = 13;
const LOOSE: usize = 16_653;
const PACKED: usize = 18_957;
const LOCKS: usize = 21_005;
const ROWS: usize = 21_261;
const LINES: usize = 27_021;

/// What a prepared transaction adds to a store.
pub struct Transaction<'a> {
    pub mode: u8,
    pub rows: &'a [Row],
    pub ours: &'a [bool],
    pub ours_packed: bool,
}

/// The region of a store with a state of its own, and perhaps a prepared transaction.
pub fn encode(store: &Store, state: &State, transaction: Option<&Transaction>) -> Vec<u8> {
    let mut region = vec![0; SIZE];
    put(&mut region, 0, 1, 1);
    put(&mut region, 1, 4, (SIZE - 5) as u64);
    put(&mut region, 5, 1, store.setting.into());
    put(&mut region, 6, 2, store.names.len() as u64);
    put(&mut region, 8, 2, state.lines.len() as u64);
    put(&mut region, 12, 1, state.packed_lock.into());
    put_names(&mut region, store, state);
    for (place, line) in state.lines.iter().enumerate() {
        let at = LINES + 22 * place;
        put(&mut region, at, 2, line.name as u64);
        put(&mut region, at + 2, 8, line.previous);
        put(&mut region, at + 10, 8, line.new);
        put(&mut region, at + 18, 2, line.committer.into());
        put(&mut region, at + 20, 2, line.message.into());
    }
    if let Some(transaction) = transaction {
        put_transaction(&mut region, transaction);
    }
    region
}

fn put_names(region: &mut [u8], store: &Store, state: &State) {
    for (number, name) in store.names.iter().enumerate() {
        let at = NAMES + 65 * number;
        put(region, at, 1, name.len() as u64);
        region[at + 1..at + 1 + name.len()].copy_from_slice(name.as_bytes());
        put_target(region, LOOSE + 9 * number, Loose::numbers(state.loose[number]));
        put(region, PACKED + 8 * number, 8, state.packed[number].unwrap_or(0));
        put(region, LOCKS + number, 1, state.locks[number].into());
    }
}

fn put_transaction(region: &mut [u8], transaction: &Transaction) {
    put(region, 10, 1, transaction.mode.into());
    put(region, 11, 1, transaction.rows.len() as u64);
    if transaction.ours_packed {
        put(region, 12, 1, 2);
    }
    for (name, _) in transaction.ours.iter().enumerate().filter(|(_, ours)| **ours) {
        put(region, LOCKS + name, 1, 2);
    }
    // The widths of a row's fields, in the order of the places of read_row: what expected, new and parent are takes two each.
    let widths = [2, 1, 1, 1, 2, 1, 1, 8, 1, 8, 1, 1, 8];
    for (place, row) in transaction.rows.iter().enumerate() {
        let mut at = ROWS + 36 * place;
        for (field, width) in row.iter().zip(widths) {
            put(region, at, width, *field);
            at += width;
        }
    }
}

/// The lock of a name in a region: 0 free, 1 foreign, 2 ours.
pub fn lock(region: &[u8], name: usize) -> u64 {
    get(region, LOCKS + name, 1)
}

/// The lock of the packed table in a region.
pub fn packed_lock(region: &[u8]) -> u64 {
    get(region, 12, 1)
}

/// The state in a region with so many names.
pub fn decode_state(region: &[u8], names: usize) -> State {
    let mut state = State::empty(names);
    for name in 0..names {
        let number = get(region, LOOSE + 9 * name + 1, 8);
        state.loose[name] = match get(region, LOOSE + 9 * name, 1) {
            0 => None,
            1 => Some(Loose::Value(Target::Object(number))),
            2 => Some(Loose::Value(Target::Link(number as usize))),
            _ => Some(Loose::Broken),
        };
        state.packed[name] = Some(get(region, PACKED + 8 * name, 8)).filter(|object| *object != 0);
        state.locks[name] = lock(region, name) == 1;
    }
    state.packed_lock = packed_lock(region) == 1;
    let lines = (0..get(region, 8, 2) as usize).map(|place| LINES + 22 * place);
    state.lines = lines.map(|at| decode_line(region, at)).collect();
    state
}

fn decode_line(region: &[u8], at: usize) -> Line {
    Line {
        name: get(region, at, 2) as usize,
        previous: get(region, at + 2, 8),
        new: get(region, at + 10, 8),
        committer: get(region, at + 18, 2) as u16,
        message: get(region, at + 20, 2) as u16,
    }
}

fn get(bytes: &[u8], at: usize, width: usize) -> u64 {
    bytes[at..at + width].iter().fold(0, |number, byte| number << 8 | u64::from(*byte))
}

/// The bytes of an edit list.
pub fn encode_list(edits: &[Edit]) -> Vec<u8> {
    let mut list = vec![0; 4 + 27 * edits.len()];
    put(&mut list, 0, 1, 1);
    put(&mut list, 1, 2, 1 + 27 * edits.len() as u64);
    put(&mut list, 3, 1, edits.len() as u64);
    for (place, edit) in edits.iter().enumerate() {
        let record = &mut list[4 + 27 * place..][..27];
        let (kind, new, force, message) = match edit.change {
            Change::Update { new, force, message } => (1, Some(new), force, message),
            Change::Delete => (2, None, false, 0),
        };
        let (expected, target) = edit.expected.parts();
        put(record, 0, 1, kind);
        put(record, 1, 1, edit.deref.into());
        put(record, 2, 1, edit.log_only.into());
        put(record, 3, 1, force.into());
        put(record, 4, 1, expected);
        put_target(record, 5, Target::numbers(target));
        put_target(record, 14, Target::numbers(new));
        put(record, 23, 2, edit.name as u64);
        put(record, 25, 2, message.into());
    }
    list
}

fn put(bytes: &mut [u8], at: usize, width: usize, number: u64) {
    bytes[at..at + width].copy_from_slice(&number.to_be_bytes()[8 - width..]);
}

fn put_target(bytes: &mut [u8], at: usize, [kind, number]: [u64; 2]) {
    put(bytes, at, 1, kind);
    put(bytes, at + 1, 8, number);
}

/// The first place among the rows where two regions differ, in words.
pub fn difference_of_rows(expected: &[u8], found: &[u8]) -> Option<String> {
    difference_from(ROWS, &expected[..LINES], &found[..LINES])
}

/// The first place where two regions differ, in words.
pub fn difference(expected: &[u8], found: &[u8]) -> Option<String> {
    difference_from(0, expected, found)
}

fn difference_from(start: usize, expected: &[u8], found: &[u8]) -> Option<String> {
    if expected[start..] == found[start..] {
        return None;
    }
    let at = start + expected[start..].iter().zip(&found[start..]).position(|(a, b)| a != b)?;
    let (what, first, width) = match at {
        0..NAMES => ("header", 0, 13),
        NAMES..LOOSE => ("name", NAMES, 65),
        LOOSE..PACKED => ("loose value", LOOSE, 9),
        PACKED..LOCKS => ("packed value", PACKED, 8),
        LOCKS..ROWS => ("lock", LOCKS, 1),
        ROWS..LINES => ("row", ROWS, 36),
        _ => ("log line", LINES, 22),
    };
    let place = (at - first) / width;
    let slot = first + place * width..first + (place + 1) * width;
    Some(format!("{what} {place}: the Rust {}, the archive {}", hex(&expected[slot.clone()]), hex(&found[slot])))
}

fn hex(bytes: &[u8]) -> String {
    bytes.iter().map(|byte| format!("{byte:02x}")).collect()
}
