//! How long gix-ref's own prepare and commit take: what tools/bench sets beside the archive. The store is the bench's usual one, 40
//! names with a loose object each, on the same kind of directory as every case. What the stand-ins add is in it: each write is counted.

use crate::case::{Change, Edit, Expected, Loose, Store, Target, ENOUGH};
use crate::original::{packed_refs, ref_edit};
use crate::site::Site;
use counted::ledger;
use gix_lock::acquire::Fail;
use gix_ref::file::{self, log::WriteReflog};
use gix_ref::transaction::RefEdit;

const NAMES: usize = 40;
const BATCHES: usize = 15;
const TURNS: usize = 20;

extern "C" {
    /// The processor time of this process, in microseconds on Linux.
    fn clock() -> std::ffi::c_long;
}

fn microseconds() -> f64 {
    // SAFETY: it takes nothing and only reads a clock.
    unsafe { clock() as f64 }
}

/// Prints the time of a transaction of one move, and of 32. It is no test, and always fine.
pub fn print(site: &Site) -> bool {
    println!("| {NAMES} names | gix-ref over stand-ins |\n|---|---:|");
    for moves in [1, 32] {
        println!("| {moves} move{} | {:.0} |", if moves == 1 { "" } else { "s" }, least(site, moves));
    }
    true
}

/// The least time of a transaction, of some batches.
fn least(site: &Site, moves: usize) -> f64 {
    let store = usual();
    site.lay_out(&store).expect("the store can be laid out");
    let files = file::Store::at(site.git_dir(), WriteReflog::Normal);
    let batches = (0..BATCHES).map(|_| {
        let began = microseconds();
        (0..TURNS).for_each(|turn| transact(&files, edits(&store, moves, turn)));
        (microseconds() - began) / TURNS as f64
    });
    batches.fold(f64::INFINITY, f64::min)
}

fn usual() -> Store {
    let names: Vec<String> = (0..NAMES).map(|i| format!("refs/heads/aisle-{i}")).collect();
    let mut store = Store::new(1, &names.iter().map(String::as_str).collect::<Vec<_>>());
    store.state.loose.fill(Some(Loose::Value(Target::Object(1))));
    store
}

/// Each name to the one object and to the other in turns, so that every move changes something.
fn edits(store: &Store, moves: usize, turn: usize) -> Vec<RefEdit> {
    let change = Change::Update { new: Target::Object(2 - turn as u64 % 2), force: false, message: 3 };
    let edit = |name| Edit { name, change, deref: false, log_only: false, expected: Expected::MustExist };
    (0..moves).map(|name| ref_edit(store, &edit(name))).collect()
}

fn transact(files: &file::Store, edits: Vec<RefEdit>) {
    ledger::open(ENOUGH);
    let transaction = files.transaction().packed_refs(packed_refs(1));
    let prepared = transaction.prepare(edits, Fail::Immediately, Fail::Immediately).expect("it can be prepared");
    prepared.commit(Some(gix_actor::SignatureRef { name: "1" })).expect("it can be committed");
    ledger::close();
}
