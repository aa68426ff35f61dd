//! A transaction's life: it ends once, and its store is whole again. And the walks.

use crate::site::*;
use crate::tally::*;
use dehlbazin::*;

fn some_list() -> EditList {
    list(&[RefEdit::update(HEAD, ANY, object(7)).through_links()])
}

fn dropped() {
    let mut region = marked();
    let before = *region;
    let mut store = done(Store::open(&mut region));
    {
        let transaction = done(store.prepare(&some_list(), MODE));
        same(transaction.row_count(), 2);
        check(*transaction.store().region() != before, "the rows stand in the region");
    }
    check(*store.region() == before, "dropped, it is rolled back");
    let failing = |store: &mut Store<'_>| -> Result<(), Refusal> {
        let _transaction = Transaction::prepare(store, &some_list(), MODE)?;
        NameNumber::new(65536)?;
        Ok(())
    };
    refused(failing(&mut store), Refusal::NotRegistered { number: 65536 });
    check(*store.region() == before, "where a question mark leaves early too");
    same(done(store.prepare(&some_list(), MODE)).rollback(), Ok(2));
    check(*store.region() == before, "rolled back by name");
    let unwound = std::panic::catch_unwind(std::panic::AssertUnwindSafe(|| {
        let _transaction = store.prepare(&some_list(), MODE);
        std::panic::resume_unwind(Box::new(()));
    }));
    check(unwound.is_err() && *store.region() == before, "and where a panic passes through");
    let outcome = done(done(store.prepare(&some_list(), MODE)).commit(planner()));
    same(outcome, Outcome::AllWritten { writes: 3 });
    same(store.read_name(AISLE), loose(object(7)));
}

/// A commit that is stopped is over, and so is one that was left prepared once the store has ended it.
fn ended() {
    let mut region = marked();
    let mut store = done(Store::open(&mut region));
    same(done(done(store.prepare(&some_list(), MODE)).commit_within(planner(), 0)), Outcome::UsedUp { writes: 0 });
    refused(store.commit(planner()), Refusal::WrongState);
    done(store.prepare(&some_list(), MODE)).leave_prepared();
    same(store.rows().count(), 2);
    refused(store.prepare(&some_list(), MODE), Refusal::WrongState);
    let mut copy = *store.region();
    same(store.rollback(), Ok(2));
    let mut other = done(Store::open(&mut copy));
    same(other.commit_within(planner(), 1), Ok(Outcome::UsedUp { writes: 1 }));
    done(other.prepare(&some_list(), MODE)).leave_prepared();
    same(other.commit(None), Ok(Outcome::NoCommitter { writes: 0 }));
    done(other.prepare(&some_list(), MODE)).leave_prepared();
    same(other.commit(planner()), Ok(Outcome::AllWritten { writes: 3 }));
}

/// What others may do while it is prepared.
fn meanwhile() {
    let mut region = marked();
    let mut store = done(Store::open(&mut region));
    let mut transaction = done(store.prepare(&some_list(), MODE));
    let tag = done(transaction.add_name("refs/tags/spring"));
    refused(transaction.place_lock(AISLE), Refusal::WrongLock); // ours
    refused(transaction.lift_lock(AISLE), Refusal::WrongLock);
    done(transaction.place_lock(tag));
    done(transaction.place_lock(Lockable::PackedTable));
    done(transaction.lift_lock(Lockable::PackedTable));
    refused(transaction.lift_lock(Lockable::PackedTable), Refusal::WrongLock);
    same(transaction.store().write_packed(&mut []), Ok(0));
    same(done(transaction.commit(planner())).writes(), 3);
    refused(store.place_lock(tag), Refusal::WrongLock); // foreign locks stay
    done(store.lift_lock(tag));
    done(store.place_lock(AISLE));
}

fn walks() {
    let mut region = marked();
    let mut store = done(Store::open(&mut region));
    let names: Vec<_> = store.names().map(|name| (name.number, name.text.to_string())).collect();
    same(names, vec![(HEAD, "HEAD".to_string()), (AISLE, "refs/heads/aisle".to_string())]);
    for n in 2..256 {
        done(store.add_name(format!("refs/n/{n}")));
    }
    same(store.names().count(), 256);
    same(store.names().last().map(|name| name.text), Some("refs/n/255"));
    same(store.rows().count(), 0);
    lines_are(&store, HEAD, &[]);
    refused(store.lines(NameNumber(256)), Refusal::NotRegistered { number: 256 });
    for number in [7, 9] {
        let edits = list(&[RefEdit::update(HEAD, ANY, object(number)).through_links()]);
        let transaction = done(store.prepare(&edits, MODE));
        let rows: Vec<_> = transaction.store().rows().map(|row| (row.name, row.parent)).collect();
        same(rows, vec![(HEAD, None), (AISLE, Some(0))]);
        same(done(transaction.commit(planner())).writes(), 3);
    }
    lines_are(&store, AISLE, &[[0, 7, 1, 0], [7, 9, 1, 0]]);
    let mut lines = done(store.lines(AISLE));
    same((lines.by_ref().count(), lines.next()), (2, None)); // past its end it stays there
}

pub fn all() {
    dropped();
    ended();
    meanwhile();
    walks();
}
