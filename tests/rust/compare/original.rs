//! The Rust's answer: a case is laid out as files, gix-ref's transaction runs on them, and what it leaves is read back.

use crate::answer::{self, Answer, Prepared, Reply, Row, Step};
use crate::case::{self, Case, Edit, End, State, Store, Target};
use crate::site::{self, Site};
use counted::ledger;
use gix_hash::ObjectId;
use gix_lock::acquire::Fail;
use gix_object::find::Never;
use gix_ref::file::{self, log, transaction::commit, transaction::prepare, transaction::PackedRefs};
use gix_ref::transaction::{Change, LogChange, PreviousValue, RefEdit, RefLog};
use gix_ref::FullName;
use std::panic::{self, AssertUnwindSafe};

/// Ways to run the Rust that a case has no word for.
#[derive(Clone, Copy, Default)]
pub struct Odd {
    /// Setting 2 is read as gix-ref's own comment has it: for all names.
    pub log_for_all: bool,
    /// A packed table without entries is there as a file.
    pub empty_packed_file: bool,
    /// Between prepare and the end, others lock all that is free.
    pub locked_between: bool,
    /// Links are looked up by exactly a name, not by what it may be short for.
    pub exact_names: bool,
    /// The directory stays as the transaction before left it.
    pub laid_out: bool,
}

/// The answer of the Rust to a case.
pub fn answer(site: &Site, case: &Case) -> Answer {
    answer_oddly(site, case, Odd::default())
}

/// The same, run in such a way. A foreign lock beneath a loose value cannot be a file, and is left out of the directory: it can be of no
/// account, since each row on its name is refused before its lock is looked at.
pub fn answer_oddly(site: &Site, case: &Case, odd: Odd) -> Answer {
    let mut laid = case.clone();
    let left_out = case.store.locks_without_files();
    left_out.iter().for_each(|name| laid.store.state.locks[*name] = false);
    let mut answer = answer_on_files(site, &laid, odd);
    if let Some(prepared) = &mut answer.prepared {
        left_out.iter().for_each(|name| prepared.after.locks[*name] = true);
    }
    answer
}

fn answer_on_files(site: &Site, case: &Case, odd: Odd) -> Answer {
    if !odd.laid_out && site.lay_out(&case.store).is_err() {
        return Answer::refused(Reply::new(answer::NO_LAYOUT, &[]));
    }
    if odd.empty_packed_file {
        std::fs::write(site.packed_path(), "# pack-refs with: sorted\n").expect("the table can be made");
    }
    let store = file::Store::at(site.git_dir(), write_reflog(case.store.setting, odd));
    let store = if odd.exact_names { store.with_exact_names() } else { store };
    ledger::open(match case.end {
        End::Commit { allowance, .. } => allowance,
        End::Rollback => 0,
    });
    let transaction = store.transaction().packed_refs(packed_refs(case.mode));
    let edits: Vec<RefEdit> = case.edits.iter().map(|edit| ref_edit(&case.store, edit)).collect();
    let run = panic::catch_unwind(AssertUnwindSafe(|| transaction.prepare(edits, Fail::Immediately, Fail::Immediately)));
    let reply = match run {
        Ok(Ok(transaction)) => return finish(site, case, transaction, odd),
        Ok(Err(err)) => refusal(site, &case.store, err),
        Err(panic) => panicked(site, case, panic.as_ref()),
    };
    assert_same(site, case, &case.store.state);
    let in_a_turn = matches!(reply.number, 8..=13 | 25);
    let turn = in_a_turn.then(|| site.name_of(&case.store, &ledger::last_tried()));
    Answer { turn, ..Answer::refused(reply) }
}

/// The files hold this state. They know no order between logs: sorted by name, which keeps the order within each, the lines
/// must be the same. The packed table's file has the very bytes that are compared as its text.
fn assert_same(site: &Site, case: &Case, state: &State) {
    let (mut expected, mut found) = (state.clone(), site.read(&case.store));
    expected.lines.sort_by_key(|line| line.name);
    found.lines.sort_by_key(|line| line.name);
    assert_eq!(expected, found, "the writes that were counted are not what changed in {case:?}");
    if let Some(file) = site.packed_file() {
        assert_eq!(file, site::packed_text(&case.store, &state.packed), "the packed table's file of {case:?}");
    }
}

/// Reads what was prepared, ends the transaction, and reads what is there then.
fn finish(site: &Site, case: &Case, transaction: file::Transaction<'_, '_>, odd: Odd) -> Answer {
    let (store, before) = (&case.store, &case.store.state);
    let rows: Vec<Row> = transaction.rows().iter().map(|found| row(store, found)).collect();
    let (locks, packed_lock) = site.locks(store);
    let ours: Vec<bool> = locks.iter().zip(&before.locks).map(|(held, foreign)| *held && !foreign).collect();
    let ours_packed = packed_lock && !before.packed_lock;
    let mut after = before.clone();
    if odd.locked_between {
        site.lock_all(store).expect("what is free can be locked");
        after.locks = ours.iter().map(|ours| !ours).collect();
        after.packed_lock = !ours_packed;
    }
    let end = match case.end {
        End::Commit { committer, .. } => end_by_commit(site, store, transaction, committer),
        End::Rollback => Reply::new(0, &[transaction.rollback().len() as u64]),
    };
    let steps: Vec<Step> = ledger::close().iter().map(|write| site.step(store, write)).collect();
    steps.iter().for_each(|step| step.apply(&mut after));
    assert_same(site, case, &after);
    Answer {
        reply: Reply::new(0, &[rows.len() as u64]),
        turn: None,
        prepared: Some(Prepared { rows, ours, ours_packed, end, steps, after }),
    }
}

fn end_by_commit(site: &Site, store: &Store, transaction: file::Transaction<'_, '_>, committer: u16) -> Reply {
    let prepared: Vec<RefEdit> = transaction.rows().into_iter().map(|row| row.edit).collect();
    let name = committer.to_string();
    let signature = (committer != 0).then_some(gix_actor::SignatureRef { name: &name });
    let result = transaction.commit(signature);
    let (writes, stopped) = ledger::count();
    let number = match result {
        Ok(edits) => {
            assert_eq!(edits, prepared, "commit hands back other edits than were prepared");
            0
        }
        Err(_) if stopped => 17,
        Err(commit::Error::CreateOrUpdateRefLog(log::create_or_update::Error::MissingCommitter)) => 16,
        Err(err) => return failure(site, store, writes as u64, err),
    };
    Reply::new(number, &[writes as u64])
}

/// An error of the file system that ends a commit, with the writes made before it and the row's name.
fn failure(site: &Site, store: &Store, writes: u64, err: commit::Error) -> Reply {
    let name = |name: &str| site::number_of(store, name) as u64;
    match err {
        commit::Error::LockCommit { full_name, .. } => Reply::new(answer::NOT_PLACED, &[writes, name(&full_name)]),
        commit::Error::DeleteReference { full_name, .. } => Reply::new(answer::NOT_REMOVED, &[writes, name(&full_name)]),
        commit::Error::DeleteReflog { full_name, .. } => Reply::new(answer::NOT_LOGGED, &[writes, name(&full_name)]),
        commit::Error::CreateOrUpdateRefLog(log::create_or_update::Error::Io(_)) => {
            Reply::new(answer::NOT_LOGGED, &[writes, site.log_of(store, &ledger::last_tried()) as u64])
        }
        _ => Reply::new(answer::FAILED, &[writes]),
    }
}

fn write_reflog(setting: u8, odd: Odd) -> log::WriteReflog {
    match setting {
        0 => log::WriteReflog::Disable,
        1 => log::WriteReflog::Normal,
        _ if odd.log_for_all => log::WriteReflog::AlwaysForAll,
        _ => log::WriteReflog::Always,
    }
}

pub fn packed_refs(mode: u8) -> PackedRefs<'static> {
    match mode {
        1 => PackedRefs::DeletionsOnly,
        2 => PackedRefs::DeletionsAndNonSymbolicUpdates(Box::new(Never)),
        _ => PackedRefs::DeletionsAndNonSymbolicUpdatesRemoveLooseSourceReference(Box::new(Never)),
    }
}

pub fn ref_edit(store: &Store, edit: &Edit) -> RefEdit {
    let expected = match edit.expected {
        case::Expected::Any => PreviousValue::Any,
        case::Expected::MustExist => PreviousValue::MustExist,
        case::Expected::MustNotExist => PreviousValue::MustNotExist,
        case::Expected::MustExistAndMatch(target) => PreviousValue::MustExistAndMatch(to_rust(store, target)),
        case::Expected::ExistingMustMatch(target) => PreviousValue::ExistingMustMatch(to_rust(store, target)),
    };
    let mode = if edit.log_only { RefLog::Only } else { RefLog::AndReference };
    let change = match edit.change {
        case::Change::Update { new, force, message } => Change::Update {
            log: LogChange { mode, force_create_reflog: force, message: message.to_string() },
            expected,
            new: to_rust(store, new),
        },
        case::Change::Delete => Change::Delete { expected, log: mode },
    };
    RefEdit { change, name: FullName::new(&store.names[edit.name]), deref: edit.deref }
}

fn to_rust(store: &Store, target: Target) -> gix_ref::Target {
    match target {
        Target::Object(number) => gix_ref::Target::Object(ObjectId::from_number(number)),
        Target::Link(name) => gix_ref::Target::Symbolic(FullName::new(&store.names[name])),
    }
}

fn from_rust(store: &Store, target: &gix_ref::Target) -> Target {
    match target {
        gix_ref::Target::Object(id) => Target::Object(id.number()),
        gix_ref::Target::Symbolic(name) => Target::Link(site::number_of(store, name.as_bstr())),
    }
}

fn row(store: &Store, row: &file::Row) -> Row {
    let (kind, mode, force, message, expected, new) = match &row.edit.change {
        Change::Update { log, expected, new } => {
            let message = log.message.parse().expect("a message's number");
            (1, log.mode, log.force_create_reflog, message, expected, Some(from_rust(store, new)))
        }
        Change::Delete { expected, log } => (2, *log, false, 0, expected, None),
    };
    let (expected, target) = match expected {
        PreviousValue::Any => (0, None),
        PreviousValue::MustExist => (1, None),
        PreviousValue::MustNotExist => (2, None),
        PreviousValue::MustExistAndMatch(target) => (3, Some(from_rust(store, target))),
        PreviousValue::ExistingMustMatch(target) => (4, Some(from_rust(store, target))),
    };
    let name = site::number_of(store, row.edit.name.as_bstr()) as u64;
    let [expected_kind, expected_number] = Target::numbers(target);
    let [new_kind, new_number] = Target::numbers(new);
    let log_only = u64::from(mode == RefLog::Only);
    let parent = row.parent.unwrap_or(0) as u64;
    let leaf = row.leaf_previous.map_or(0, |id| id.number());
    [
        name,
        kind,
        log_only,
        force.into(),
        message,
        expected,
        expected_kind,
        expected_number,
        new_kind,
        new_number,
        row.parent.is_some().into(),
        parent,
        leaf,
    ]
}

/// The scope's number for an error of prepare, with its extras. An I/O error is 25 if it comes from a row's lock file, which cannot be made:
/// the file was to be locked last, and was not.
fn refusal(site: &Site, store: &Store, err: prepare::Error) -> Reply {
    let name = |name: &str| site::number_of(store, name) as u64;
    let target = |target: &gix_ref::Target| Target::numbers(Some(from_rust(store, target)));
    match err {
        prepare::Error::PreprocessingFailed(err) => match err.kind() {
            std::io::ErrorKind::WouldBlock => Reply::new(4, &[]),
            _ => {
                let text = err.to_string();
                Reply::new(6, &[name(text.split('\'').nth(1).expect("the name is quoted"))])
            }
        },
        prepare::Error::PackedTransactionAcquire(_) => Reply::new(7, &[]),
        prepare::Error::LockAcquire { full_name, .. } => Reply::new(8, &[name(&full_name)]),
        prepare::Error::DeleteReferenceMustExist { full_name } => Reply::new(9, &[name(&full_name)]),
        prepare::Error::MustNotExist { full_name, actual, new } => {
            let ([kind, number], [new_kind, new_number]) = (target(&actual), target(&new));
            Reply::new(10, &[name(&full_name), kind, number, new_kind, new_number])
        }
        prepare::Error::MustExist { full_name, expected } => {
            let [kind, number] = target(&expected);
            Reply::new(11, &[name(&full_name), kind, number])
        }
        prepare::Error::ReferenceOutOfDate { full_name, expected, actual } => {
            let ([kind, number], [actual_kind, actual_number]) = (target(&expected), target(&actual));
            Reply::new(12, &[name(&full_name), kind, number, actual_kind, actual_number])
        }
        prepare::Error::Io(_) if ledger::last_tried() != ledger::last_lock() => {
            Reply::new(25, &[site.name_of(store, &ledger::last_tried()) as u64])
        }
        _ => Reply::new(answer::FAILED, &[]),
    }
}

/// A delete that expects nothing there makes the Rust panic, with the lock of its name taken last. The scope has 13 for it.
fn panicked(site: &Site, case: &Case, panic: &(dyn std::any::Any + Send)) -> Reply {
    let text = panic.downcast_ref::<&str>().copied().unwrap_or_default();
    if text.starts_with("BUG: MustNotExist constraint") {
        return Reply::new(13, &[site.name_of(&case.store, &ledger::last_lock()) as u64]);
    }
    Reply::new(answer::PANICKED, &[])
}
