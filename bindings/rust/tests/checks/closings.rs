//! A receiver is closed: with every number that prepare gives, closing answers the same, leaves the same region, and a fresh
//! receiver. By the plain entry alone where the types hold no such thing.

use crate::fragments::{longest, many, one};
use crate::plain;
use crate::receiver::*;
use crate::site::*;
use crate::step::bare;
use crate::tally::*;
use dehlbazin::*;

fn with(mut region: Box<Region>, change: impl FnOnce(&mut Store<'_>)) -> Box<Region> {
    change(&mut done(Store::open(&mut region)));
    region
}

/// A store where a transaction without rows is prepared.
fn prepared() -> Box<Region> {
    with(marked(), |store| done(store.prepare(&EditList::new(), MODE)).leave_prepared())
}

/// The numbers that prepare gives, each with a store and edits for which it gives it in mode 1. 2 is not among them: no list of
/// the crate is malformed.
fn each_number() -> Vec<(u32, Box<Region>, Vec<RefEdit>)> {
    use PreviousValue::*;
    let update = |expected| vec![RefEdit::update(AISLE, expected, object(7))];
    let delete = |expected| vec![RefEdit::delete(AISLE, expected)];
    let through = || vec![RefEdit::update(HEAD, ANY, object(7)).through_links()];
    let there = || with(marked(), |store| done(store.load_loose(AISLE, object(5))));
    let beneath = with(marked(), |store| {
        let shelf = done(store.add_name("refs/heads/aisle/shelf"));
        done(store.load_loose(shelf, object(5)));
    });
    vec![
        (0, marked(), vec![]),
        (0, marked(), through()),
        (0, there(), delete(MustExist)),
        (3, marked(), vec![RefEdit::delete(NameNumber(0x0102), ANY)]),
        (4, with(marked(), |store| done(store.load_loose(AISLE, link(HEAD)))), through()),
        (6, marked(), [update(ANY), delete(ANY)].concat()),
        (7, with(marked(), |store| done(store.place_lock(Lockable::PackedTable))), update(ANY)),
        (8, with(marked(), |store| done(store.place_lock(AISLE))), through()),
        (9, marked(), delete(MustExist)),
        (10, there(), update(MustNotExist)),
        (11, marked(), update(MustExist)),
        (12, there(), update(MustExistAndMatch(link(HEAD)))),
        (13, marked(), delete(MustNotExist)),
        (14, full_log(), vec![RefEdit::update(NameNumber(0), ANY, object(99))]),
        (15, prepared(), update(ANY)),
        (25, beneath, update(ANY)),
    ]
}

/// How many rows there are, if it is prepared, as it is left in the region then.
fn rows_left(prepared: Result<Transaction<'_>, Refusal>) -> Result<u64, Refusal> {
    prepared.map(|transaction| {
        let rows = transaction.row_count();
        transaction.leave_prepared();
        rows
    })
}

/// Each number, by fragments in each mode; and the same refusal and region as by the crate's own prepare.
fn numbers() {
    for (number, region, edits) in each_number() {
        let edits = list(&edits);
        let sent = edits.bytes();
        let (first, rest) = sent.split_at(sent.len() / 2);
        same(arrives(&region, &[first, rest], 1), number);
        for mode in [2, 3] {
            arrives(&region, &[first, &[], rest], mode);
        }
        let (mut whole, mut closed, mut bytes) = (region.clone(), region, [0; RECEIVER_SIZE]);
        let mut receiver = done(Receiver::fresh(&mut bytes));
        done(receiver.take(&sent));
        let wanted = rows_left(done(Store::open(&mut whole)).prepare(&edits, MODE));
        same(rows_left(receiver.close(&mut done(Store::open(&mut closed)), MODE)), wanted);
        same((receiver.held(), receiver.bytes()), (0, &[0; RECEIVER_SIZE]));
        check(whole == closed, "the region is the one that prepare leaves");
    }
}

/// Bytes that are missing, that stand behind the list, or that are wrong. While a transaction is prepared, that comes first.
fn malformed() {
    let (small, large, held) = (marked(), many(), prepared());
    let (one, longest) = (one(), longest());
    for at in 0..one.len() {
        same(arrives(&small, &[&one[..at]], 1), 2);
        same(arrives(&held, &[&one[..at]], 1), 15);
    }
    for at in [0, 1, 3, 4, 31, 512, 841, 866, 867] {
        same(arrives(&large, &[&longest[..at]], 1), 2);
    }
    for behind in [&[0][..], &[1], &one[..], &[0; 837]] {
        same(arrives(&small, &[&one, behind], 1), 2);
        same(arrives(&held, &[&one, behind], 1), 15);
    }
    same(arrives(&large, &[&longest[..512], &longest[..356]], 1), 2); // all of its length, and another list begins in it
    for (at, byte) in [(0, 0), (0, 2), (1, 1), (2, 0x1b), (2, 0x1d), (3, 0), (3, 2), (4, 0), (4, 3), (5, 2), (8, 5), (18, 0)] {
        let mut wrong = one.clone();
        wrong[at] = byte;
        same(arrives(&small, &[&wrong[..9], &wrong[9..]], 1), 2);
    }
}

/// What the plain entry answers, and that the region stays as it is. The receiver becomes this one.
#[track_caller]
fn refuses(region: &mut [u8], receiver: &[u8], mode: u64, number: u32, left: &[u8]) {
    let (before, mut receiver) = (region.to_vec(), receiver.to_vec());
    same(close_plainly(region, &mut receiver, mode), bare(number));
    check(region == before, "a refusal changes no byte of the region");
    check(receiver == left, "the receiver that is left");
}

/// What is no mode, in all 64 bits, is as malformed as a list is.
fn modes() {
    let good = holding(&one());
    for mode in [0, 4, 255, 256, 257, 65_537, (1 << 32) + 1, (1 << 63) + 2, u64::MAX] {
        refuses(&mut marked()[..], &good, mode, 2, &holding(&[]));
        refuses(&mut marked()[..], &holding(&[]), mode, 2, &holding(&[]));
        refuses(&mut prepared()[..], &good, mode, 15, &holding(&[]));
    }
}

/// A region that is not good is refused, and leaves a good receiver fresh. A receiver that is not good stays as it is, whatever
/// the region.
fn regions() {
    let (good, mut bad) = (holding(&one()), holding(&one()));
    bad[869] = 1;
    for mode in [1, 2, 3, 0, u64::MAX] {
        refuses(&mut marked()[..], &bad, mode, 1, &bad);
        refuses(&mut prepared()[..], &bad, mode, 1, &bad);
        for (at, byte) in [(0, 2), (5, 3), (12, 2), (REGION_SIZE - 1, 1)] {
            let mut region = marked();
            region[at] = byte;
            refuses(&mut region[..], &good, mode, 1, &holding(&[]));
            refuses(&mut region[..], &holding(&[0xff; 868]), mode, 1, &holding(&[]));
            refuses(&mut region[..], &bad, mode, 1, &bad);
            refuses(&mut region[..], &good[1..], mode, 1, &good[1..]);
        }
        for size in [0, 1, REGION_SIZE - 1, REGION_SIZE + 1] {
            let mut region = marked().to_vec();
            region.resize(size, 0);
            refuses(&mut region, &good, mode, 1, &holding(&[]));
            refuses(&mut region, &bad, mode, 1, &bad);
        }
    }
}

/// An answer record of another size: nothing at all is written.
fn records() {
    for size in [0, 8, 127, 129, 256] {
        let mut answer = vec![0xa5; size];
        for before in [holding(&one()), holding(&[]), vec![0xff; 870], vec![0xff; 9]] {
            let (mut region, mut receiver) = (marked(), before.clone());
            same(plain::fresh_receiver(&mut receiver, &mut answer), 1);
            same(plain::take_fragment(&mut receiver, &one(), &mut answer), 1);
            same(plain::take_fragment(&mut receiver, &[0; 869], &mut answer), 1);
            same(plain::close_receiver(&mut region[..], &mut receiver, 1, &mut answer), 1);
            same(plain::close_receiver(&mut region[..], &mut receiver, 9, &mut answer), 1);
            check(receiver == before && region == marked(), "the region and the receiver are as they were");
        }
        check(answer.iter().all(|&byte| byte == 0xa5), "and so is the record");
    }
}

/// What closing gives is a transaction as any other: it is rolled back when it is dropped, or committed. While it is held, the
/// next list may arrive. While it is prepared, no other list is closed, and what is prepared stays so.
fn meanwhile() {
    let mut region = marked();
    let before = *region;
    let mut store = done(Store::open(&mut region));
    let mut bytes = [0; RECEIVER_SIZE];
    let mut receiver = done(Receiver::fresh(&mut bytes));
    done(receiver.take(one()));
    drop(done(receiver.close(&mut store, MODE)));
    check(*store.region() == before, "dropped, it is rolled back");
    done(receiver.take(&one()[..30]));
    refused(receiver.close(&mut store, MODE), Refusal::Malformed);
    done(receiver.take(one()));
    let transaction = done(receiver.close(&mut store, MODE));
    same((transaction.row_count(), receiver.take(&one()[..7])), (2, Ok(7)));
    transaction.leave_prepared();
    let left = *store.region();
    same(receiver.take(&one()[7..]), Ok(31));
    refused(receiver.close(&mut store, MODE), Refusal::WrongState);
    check(*store.region() == left && receiver.held() == 0, "what is prepared stays so, and the receiver is fresh");
    same(store.commit(planner()), Ok(Outcome::AllWritten { writes: 3 }));
    done(receiver.take(one()));
    same(done(done(receiver.close(&mut store, MODE)).commit(planner())).writes(), 0); // it is there already
    lines_are(&store, HEAD, &[[0, 7, 1, 3]]);
}

pub fn all() {
    numbers();
    malformed();
    modes();
    regions();
    records();
    meanwhile();
}
