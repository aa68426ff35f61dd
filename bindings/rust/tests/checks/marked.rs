//! The marked examples P1 to P11: rows, writes, lines and what is read.

use crate::site::*;
use crate::tally::*;
use dehlbazin::*;

fn through_head(number: u64) -> RefEdit {
    let log = LogChange { message: Message(3), ..LogChange::default() };
    RefEdit::update_with(log, HEAD, ANY, object(number)).through_links()
}

#[track_caller]
fn writes(store: &mut Store<'_>, edits: &[RefEdit], rows: u64, count: u64) {
    let transaction = done(store.prepare(&list(edits), MODE));
    same(transaction.row_count(), rows);
    same(done(transaction.commit(planner())), Outcome::AllWritten { writes: count });
}

/// What a name reads after each number of writes that an edit is allowed; every time from the same store.
fn reads_at_stops(region: &Region, edit: RefEdit, name: NameNumber, count: u64) -> Vec<Option<Target>> {
    let mut values = Vec::new();
    for allowance in 0..=count {
        let mut copy = *region;
        let mut store = done(Store::open(&mut copy));
        let outcome = done(done(store.prepare(&list(&[edit]), MODE)).commit_within(planner(), allowance));
        let stopped = Outcome::UsedUp { writes: allowance };
        same(outcome, if allowance == count { Outcome::AllWritten { writes: count } } else { stopped });
        values.push(done(store.read_name(name)).target);
    }
    values
}

/// P1: an update through HEAD's link. P2: then another object. P3: and the same one again.
fn updates() {
    let mut region = marked();
    same(reads_at_stops(&region, through_head(7), AISLE, 3), vec![None, None, None, Some(object(7))]);
    let mut store = done(Store::open(&mut region));
    let transaction = done(store.prepare(&list(&[through_head(7)]), MODE));
    let rows: Vec<_> = transaction.store().rows().collect();
    let log = |mode| LogChange { mode, force_create_reflog: false, message: Message(3) };
    let there = PreviousValue::MustExistAndMatch(link(AISLE));
    let first = Change::Update { log: log(RefLog::Only), expected: there, new: object(7) };
    let second = Change::Update { log: log(RefLog::AndReference), expected: ANY, new: object(7) };
    let row = |name, change, parent, found| Row { name, change, parent, leaf_previous: None, found };
    same(rows, vec![row(HEAD, first, None, Place::Loose), row(AISLE, second, Some(0), Place::Absent)]);
    drop(transaction);
    writes(&mut store, &[through_head(7)], 2, 3);
    lines_are(&store, HEAD, &[[0, 7, 1, 3]]);
    lines_are(&store, AISLE, &[[0, 7, 1, 3]]);
    same(store.read_name(HEAD), loose(link(AISLE)));
    same(store.read_name(AISLE), loose(object(7)));
    writes(&mut store, &[through_head(9)], 2, 3);
    lines_are(&store, HEAD, &[[0, 7, 1, 3], [7, 9, 1, 3]]);
    lines_are(&store, AISLE, &[[0, 7, 1, 3], [7, 9, 1, 3]]);
    let before = *store.region();
    writes(&mut store, &[through_head(9)], 2, 0);
    check(*store.region() == before, "P3: no write");
}

/// P4: a delete through HEAD's link that expects the object behind it is judged by the link first.
fn delete() {
    let mut region = marked();
    let mut store = done(Store::open(&mut region));
    done(store.load_loose(AISLE, object(9)));
    let edit = RefEdit::delete(HEAD, PreviousValue::MustExistAndMatch(object(9))).through_links();
    let refusal = Refusal::ReferenceOutOfDate { name: HEAD, expected: object(9), actual: link(AISLE) };
    refused(store.prepare(&list(&[edit]), MODE), refusal);
}

/// A store whose name 0 leads through so many links to object 5.
fn chain(hops: u16) -> Box<Region> {
    let mut region = site(&["HEAD"]);
    let mut store = done(Store::open(&mut region));
    for n in 0..hops {
        let next = done(store.add_name(format!("refs/heads/{}", n + 1)));
        done(store.load_loose(NameNumber(n), link(next)));
    }
    done(store.load_loose(NameNumber(hops), object(5)));
    region
}

/// P5: four hops. P6: five. P7: a link to itself.
fn hops() {
    let mut region = chain(4);
    let mut store = done(Store::open(&mut region));
    writes(&mut store, &[through_head(7)], 5, 6);
    for n in 0..5 {
        lines_are(&store, NameNumber(n), &[[5, 7, 1, 3]]);
    }
    same(store.read_name(NameNumber(4)), loose(object(7)));
    let mut region = chain(5);
    refused(done(Store::open(&mut region)).prepare(&list(&[through_head(7)]), MODE), Refusal::ReferenceCycle);
    let mut region = marked();
    let mut store = done(Store::open(&mut region));
    done(store.load_loose(HEAD, link(HEAD)));
    refused(store.prepare(&list(&[through_head(7)]), MODE), Refusal::ReferenceCycle);
}

/// P8: an update that expects nothing, where what is there is its target already. P9: no edits.
fn passes() {
    let mut region = marked();
    let mut store = done(Store::open(&mut region));
    done(store.load_loose(AISLE, object(7)));
    let edit = RefEdit::update(AISLE, PreviousValue::MustNotExist, object(7));
    writes(&mut store, &[edit], 1, 0);
    done(store.load_loose(AISLE, object(8)));
    let refusal = Refusal::MustNotExist { name: AISLE, actual: object(8), new: object(7) };
    refused(store.prepare(&list(&[edit]), MODE), refusal);
    writes(&mut store, &[], 0, 0);
}

/// P10: a name with both values is deleted. It never reads the packed one. P11: a log-only update alone, of a packed-only name.
fn packed() {
    let mut region = marked();
    let mut store = done(Store::open(&mut region));
    done(store.load_packed(AISLE, ObjectNumber::new(3).unwrap()));
    let only = LogChange { mode: RefLog::Only, ..LogChange::default() };
    let log_only = RefEdit::update_with(only, AISLE, PreviousValue::MustExist, object(7));
    refused(store.prepare(&list(&[log_only]), MODE), Refusal::MustExist { name: AISLE, expected: None });
    let mut both = *store.region();
    writes(&mut store, &[RefEdit::update(AISLE, PreviousValue::MustExist, object(7))], 1, 2);
    lines_are(&store, AISLE, &[[3, 7, 1, 0]]);
    done(done(Store::open(&mut both)).load_loose(AISLE, object(5)));
    let stops = reads_at_stops(&both, RefEdit::delete(AISLE, ANY), AISLE, 2);
    same(stops, vec![Some(object(5)), Some(object(5)), None]);
}

pub fn all() {
    updates();
    delete();
    hops();
    passes();
    packed();
}
