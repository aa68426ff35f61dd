//! A call as numbers and bytes, which can be made in two ways: by the plain entry, and through the crate.

use crate::plain::{self, place, LOCKABLE_NAME};
use dehlbazin::*;

/// A kind and a number: of a value, with (0, 0) for none, or of what is locked.
pub type Parts = (u64, u64);

/// An edit in numbers, as the table of docs/SPEC.md has it.
#[derive(Clone, Debug, Default)]
pub struct Fields {
    pub update: bool,
    pub deref: bool,
    pub log_only: bool,
    pub force: bool,
    pub expected: u64,
    pub expected_target: Parts,
    pub new: Parts,
    pub name: u16,
    pub message: u16,
}

#[derive(Clone, Debug)]
pub enum Step {
    Start(u64),
    StartWith(Vec<u8>),
    AddName(Vec<u8>),
    NameBytes(u16),
    LoadLoose(u16, Parts),
    LoadPacked(u16, u64),
    PlaceLock(Parts),
    LiftLock(Parts),
    Prepare(Vec<Fields>, u64),
    Commit(u16, u64),
    Rollback,
    ReadName(u16),
    ReadLine(u16, u64),
    ReadRow(u64),
    WritePacked(usize),
    ReadPacked(Vec<u8>),
}

/// The number, and all 16 places.
pub type Reply = (u32, [u64; 16]);

/// What a call answers that has no places: mostly a refusal.
pub fn bare(number: u32) -> Reply {
    (number, [0; 16])
}

/// The bytes of an edit list, by the table of docs/SPEC.md.
pub fn list_bytes(edits: &[Fields]) -> Vec<u8> {
    let follow = 1 + 27 * edits.len();
    let mut bytes = vec![1, (follow >> 8) as u8, follow as u8, edits.len() as u8];
    for edit in edits {
        let kind = if edit.update { 1 } else { 2 };
        bytes.extend([kind, edit.deref as u8, edit.log_only as u8, edit.force as u8, edit.expected as u8]);
        for (kind, number) in [edit.expected_target, edit.new] {
            bytes.push(kind as u8);
            bytes.extend(number.to_be_bytes());
        }
        bytes.extend(edit.name.to_be_bytes());
        bytes.extend(edit.message.to_be_bytes());
    }
    bytes
}

/// The last place of an answer, which no call fills: of writing a text it has a sum of the whole buffer here, so that its bytes
/// are compared too. It has none where the region is bad: then there is no store to make the call on.
const LAST: usize = 15;
const BAD_REGION: u32 = 1;

/// A buffer to write a text into.
fn buffer_of(size: usize) -> Vec<u8> {
    vec![0xa5; size]
}

/// FNV-1a.
fn sum(bytes: &[u8]) -> u64 {
    bytes.iter().fold(0xcbf2_9ce4_8422_2325, |sum, &byte| (sum ^ u64::from(byte)).wrapping_mul(0x100_0000_01b3))
}

pub fn make_plainly(step: &Step, region: &mut Region) -> Reply {
    let mut record = [0xaa; 128]; // each place is written, so none of these stay
    let mut buffer = if let Step::WritePacked(size) = step { buffer_of(*size) } else { Vec::new() };
    let to = &mut record;
    let number = match step {
        Step::Start(setting) => plain::start(region, *setting, to),
        Step::StartWith(record) => plain::start_with_settings(region, record, to),
        Step::AddName(bytes) => plain::add_name(region, bytes, to),
        Step::NameBytes(name) => plain::name_bytes(region, u64::from(*name), to),
        Step::LoadLoose(name, (kind, number)) => plain::load_loose(region, u64::from(*name), *kind, *number, to),
        Step::LoadPacked(name, object) => plain::load_packed(region, u64::from(*name), u64::from(*object != 0), *object, to),
        Step::PlaceLock((kind, number)) => plain::place_lock(region, *kind, *number, to),
        Step::LiftLock((kind, number)) => plain::lift_lock(region, *kind, *number, to),
        Step::Prepare(edits, mode) => plain::prepare(region, &list_bytes(edits), *mode, to),
        Step::Commit(committer, allowance) => plain::commit(region, u64::from(*committer), *allowance, to),
        Step::Rollback => plain::rollback(region, to),
        Step::ReadName(name) => plain::read_name(region, u64::from(*name), to),
        Step::ReadLine(name, at) => plain::read_line(region, u64::from(*name), *at, to),
        Step::ReadRow(at) => plain::read_row(region, *at, to),
        Step::WritePacked(_) => plain::write_packed(region, &mut buffer, to),
        Step::ReadPacked(text) => plain::read_packed(region, text, to),
    };
    let mut places = [0; 16];
    (0..16).for_each(|i| places[i] = place(&record, i));
    if matches!(step, Step::WritePacked(_)) && number != BAD_REGION {
        places[LAST] ^= sum(&buffer);
    }
    (number, places)
}

// ---- through the crate

fn target_of((kind, number): Parts) -> Option<Target> {
    match kind {
        0 => None,
        1 => Some(Target::Object(ObjectNumber::new(number).unwrap())),
        _ => Some(Target::Symbolic(NameNumber::new(number).unwrap())),
    }
}

fn edit_of(fields: &Fields) -> RefEdit {
    let target = target_of(fields.expected_target);
    let expected = match fields.expected {
        0 => PreviousValue::Any,
        1 => PreviousValue::MustExist,
        2 => PreviousValue::MustNotExist,
        3 => PreviousValue::MustExistAndMatch(target.unwrap()),
        _ => PreviousValue::ExistingMustMatch(target.unwrap()),
    };
    let mode = if fields.log_only { RefLog::Only } else { RefLog::AndReference };
    let log = LogChange { mode, force_create_reflog: fields.force, message: Message(fields.message) };
    let change = match target_of(fields.new) {
        Some(new) => Change::Update { log, expected, new },
        None => Change::Delete { expected, log: mode },
    };
    RefEdit { change, name: NameNumber(fields.name), deref: fields.deref }
}

pub fn list_of(edits: &[Fields]) -> EditList {
    EditList::of(edits.iter().map(edit_of)).unwrap()
}

pub fn mode_of(mode: u64) -> PackedRefs {
    match mode {
        1 => PackedRefs::DeletionsOnly,
        2 => PackedRefs::DeletionsAndNonSymbolicUpdates,
        _ => PackedRefs::DeletionsAndNonSymbolicUpdatesRemoveLooseSourceReference,
    }
}

pub fn setting_of(setting: u64) -> Setting {
    match setting {
        0 => Setting::Never,
        1 => Setting::Normal,
        _ => Setting::Always,
    }
}

fn loose_of(parts: Parts) -> Loose {
    if parts.0 == 3 {
        Loose::Broken
    } else {
        target_of(parts).into()
    }
}

/// The number beside the packed table is left out: a typed call has none there.
fn lockable_of((kind, number): Parts) -> Lockable {
    if kind == LOCKABLE_NAME {
        Lockable::Name(NameNumber::new(number).unwrap())
    } else {
        Lockable::PackedTable
    }
}

/// Makes a call on a store. What is given as values is put back into places.
pub fn make(step: &Step, store: &mut Store<'_>) -> Reply {
    match step {
        Step::Start(setting) => reply(store.restart(setting_of(*setting)), |_| vec![]),
        Step::StartWith(record) => reply(store.restart_with_settings(record), |_| vec![]),
        Step::AddName(bytes) => reply(store.add_name(bytes), |name| vec![name.get()]),
        Step::LoadLoose(name, value) => reply(store.load_loose(NameNumber(*name), loose_of(*value)), |_| vec![]),
        Step::LoadPacked(name, object) => {
            reply(store.load_packed(NameNumber(*name), ObjectNumber::new(*object).ok()), |_| vec![])
        }
        Step::PlaceLock(what) => reply(store.place_lock(lockable_of(*what)), |_| vec![]),
        Step::LiftLock(what) => reply(store.lift_lock(lockable_of(*what)), |_| vec![]),
        Step::Prepare(edits, mode) => {
            let rows = store.prepare(&list_of(edits), mode_of(*mode)).map(|transaction| {
                let rows = transaction.row_count();
                transaction.leave_prepared();
                rows
            });
            reply(rows, |rows| vec![rows])
        }
        Step::Commit(committer, allowance) => outcome(store.commit_within(committer_of(*committer), *allowance)),
        Step::Rollback => reply(store.rollback(), |rows| vec![rows]),
        Step::ReadPacked(text) => reply(store.read_packed(text), |refs| vec![refs]),
        _ => read(step, store.view()),
    }
}

/// The calls that may be made while a transaction is held.
pub fn make_meanwhile(step: &Step, transaction: &mut Transaction<'_>) -> Reply {
    match step {
        Step::AddName(bytes) => reply(transaction.add_name(bytes), |name| vec![name.get()]),
        Step::PlaceLock(what) => reply(transaction.place_lock(lockable_of(*what)), |_| vec![]),
        Step::LiftLock(what) => reply(transaction.lift_lock(lockable_of(*what)), |_| vec![]),
        _ => read(step, transaction.store().view()),
    }
}

pub fn committer_of(number: u16) -> Option<Committer> {
    Committer::new(u64::from(number)).ok()
}

pub fn outcome(result: Result<Outcome, Refusal>) -> Reply {
    let number = result.map_or(0, Outcome::number);
    let (refused, places) = reply(result, |outcome| vec![outcome.writes()]);
    (number.max(refused), places)
}

/// The calls that change nothing.
pub fn read(step: &Step, view: View<'_>) -> Reply {
    match step {
        Step::NameBytes(name) => reply(view.name_bytes(NameNumber(*name)), |bytes| {
            vec![(bytes.as_ptr() as usize - view.region().as_ptr() as usize) as u64, bytes.len() as u64]
        }),
        Step::ReadName(name) => reply(view.read_name(NameNumber(*name)), |found| {
            let [kind, number] = parts(found.target);
            vec![kind, number, place_number(found.place)]
        }),
        Step::ReadLine(name, at) => reply(view.read_line(NameNumber(*name), *at), |line| {
            let previous = line.previous.map_or(0, ObjectNumber::get);
            vec![previous, line.new.get(), line.committer.get(), line.message.get()]
        }),
        Step::ReadRow(at) => reply(view.read_row(*at), row_places),
        Step::WritePacked(size) => {
            let mut buffer = buffer_of(*size);
            let mut reply = reply(view.write_packed(&mut buffer), |length| vec![length as u64]);
            reply.1[LAST] ^= sum(&buffer);
            reply
        }
        _ => panic!("{step:?} does not only read"),
    }
}

pub fn reply<T>(result: Result<T, Refusal>, places: impl FnOnce(T) -> Vec<u64>) -> Reply {
    let (number, given) = match result {
        Ok(value) => (0, places(value)),
        Err(refusal) => (refusal.number(), refusal_places(refusal)),
    };
    let mut places = [0; 16];
    places[..given.len()].copy_from_slice(&given);
    (number, places)
}

fn parts(target: Option<Target>) -> [u64; 2] {
    match target {
        None => [0, 0],
        Some(Target::Object(object)) => [1, object.get()],
        Some(Target::Symbolic(name)) => [2, name.get()],
    }
}

/// The number of a place, written here from docs/SPEC.md.
pub fn place_number(place: Place) -> u64 {
    match place {
        Place::Loose => 1,
        Place::Packed => 2,
        Place::PackedBehindBroken => 3,
        Place::Absent => 4,
        Place::AbsentBehindBroken => 5,
    }
}

fn refusal_places(refusal: Refusal) -> Vec<u64> {
    let two = |name: NameNumber, [a, b]: [u64; 2], [c, d]: [u64; 2]| vec![name.get(), a, b, c, d];
    match refusal {
        Refusal::NotRegistered { number } => vec![number],
        Refusal::MalformedLine { line } => vec![line],
        Refusal::MultipleEdits { name }
        | Refusal::LockAcquire { name }
        | Refusal::DeleteReferenceMustExist { name }
        | Refusal::DeleteMustNotExist { name }
        | Refusal::NameConflict { name } => vec![name.get()],
        Refusal::MustNotExist { name, actual, new } => two(name, parts(Some(actual)), parts(Some(new))),
        Refusal::MustExist { name, expected: None } => vec![name.get(), 1, 0],
        Refusal::MustExist { name, expected } => two(name, parts(expected), [0, 0]),
        Refusal::ReferenceOutOfDate { name, expected, actual } => two(name, parts(Some(expected)), parts(Some(actual))),
        _ => vec![],
    }
}

fn row_places(row: Row) -> Vec<u64> {
    let (kind, log, expected, new) = match row.change {
        Change::Update { log, expected, new } => (1, log, expected, Some(new)),
        Change::Delete { expected, log } => (2, LogChange { mode: log, ..LogChange::default() }, expected, None),
    };
    let expects = match expected {
        PreviousValue::Any => 0,
        PreviousValue::MustExist => 1,
        PreviousValue::MustNotExist => 2,
        PreviousValue::MustExistAndMatch(_) => 3,
        PreviousValue::ExistingMustMatch(_) => 4,
    };
    let only = u64::from(log.mode == RefLog::Only);
    let mut places = vec![row.name.get(), kind, only, u64::from(log.force_create_reflog), log.message.get(), expects];
    places.extend(parts(expected.target()));
    places.extend(parts(new));
    places.extend([u64::from(row.parent.is_some()), row.parent.unwrap_or(0)]);
    places.extend([row.leaf_previous.map_or(0, ObjectNumber::get), place_number(row.found)]);
    places
}
