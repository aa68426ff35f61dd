//! A receiver is made and takes fragments, however a list is cut; and bytes that are no good receiver are refused. Each call is
//! made through its typed form and by the plain entry.

use crate::receiver::*;
use crate::site::*;
use crate::step::bare;
use crate::tally::*;
use dehlbazin::*;

/// Sizes that are not a receiver's. The last would be if it were cut down to 16 bits.
const OTHER_SIZES: [usize; 7] = [0, 1, 2, 869, 871, 1740, 65_536 + 870];

/// One update through HEAD's link, with a message, so that its last byte is not 0: 31 bytes.
pub fn one() -> Vec<u8> {
    let log = LogChange { message: Message(3), ..LogChange::default() };
    list(&[RefEdit::update_with(log, HEAD, ANY, object(7)).through_links()]).bytes()
}

/// As many updates as a list holds, each of another name: 868 bytes.
pub fn longest() -> Vec<u8> {
    let log = LogChange { message: Message(0x0102), ..LogChange::default() };
    done(EditList::of((0..32).map(|n| RefEdit::update_with(log, NameNumber(n), ANY, object(99))))).bytes()
}

/// A store with those names, which have no values.
pub fn many() -> Box<Region> {
    let mut region = site(&[]);
    let mut store = done(Store::open(&mut region));
    for n in 0..32 {
        done(store.add_name(format!("refs/heads/aisle-{n}")));
    }
    region
}

/// Bytes of its size become fresh, whatever they were. Others stay as they are.
fn fresh() {
    for before in [vec![0; 870], vec![0xff; 870], holding(&one()), holding(&longest()), (0..870).map(|i| i as u8).collect()] {
        let mut bytes = before.clone();
        same(fresh_plainly(&mut bytes), bare(0));
        check(bytes == holding(&[]), "fresh by the plain entry");
        bytes.copy_from_slice(&before);
        same(done(Receiver::fresh_in(&mut bytes)).held(), 0);
        check(bytes == holding(&[]), "fresh by the crate");
        let mut array: ReceiverBytes = before.clone().try_into().unwrap();
        same(done(Receiver::fresh(&mut array)).bytes(), &[0; RECEIVER_SIZE]);
        check(bytes == array, "and of an array");
    }
    for size in OTHER_SIZES {
        let mut bytes = vec![0xa5; size];
        same(fresh_plainly(&mut bytes), bare(1));
        refused(Receiver::fresh_in(&mut bytes), Refusal::BadRegion);
        check(bytes.iter().all(|&byte| byte == 0xa5), "bytes of another size stay as they were");
    }
}

/// What a receiver says of itself, and that it is made fresh while it is held, or taken up from bytes that were kept.
fn kept() {
    let mut bytes = [0xff; RECEIVER_SIZE];
    let mut receiver = done(Receiver::fresh(&mut bytes));
    same(receiver.take(String::from("some")), Ok(4));
    same(receiver.take(vec![0; 300]), Ok(304));
    same((receiver.held(), format!("{receiver:?}")), (304, "Receiver { held: 304, .. }".to_string()));
    let kept = receiver.bytes().to_vec();
    same(held(&kept), Some(&[&b"some"[..], &[0; 300]].concat()[..]));
    done(receiver.make_fresh());
    same((receiver.held(), receiver.bytes()), (0, &[0; RECEIVER_SIZE]));
    let mut longer = [&[9], &kept[..]].concat(); // it need not be aligned
    let mut again = done(Receiver::open_in(&mut longer[1..]));
    same((again.held(), again.take(b"more")), (304, Ok(308)));
    same(receiver.held(), 0); // another one
    bytes.copy_from_slice(&kept);
    same(done(Receiver::open(&mut bytes)).held(), 304);
}

/// Cut in two at every place, and in three with a piece of a message's size between; then in bytes, each of which is counted.
fn cut() {
    let (small, large) = (marked(), many());
    let empty = EditList::new().bytes();
    let pair = list(&[RefEdit::update(AISLE, ANY, object(7)), RefEdit::delete(HEAD, ANY)]).bytes();
    for (region, sent) in [(&small, empty), (&small, one()), (&small, pair), (&large, longest())] {
        for at in 0..=sent.len() {
            let (first, rest) = sent.split_at(at);
            same(arrives(region, &[first, rest], 1), 0);
            let (second, third) = rest.split_at(rest.len().min(512));
            same(arrives(region, &[first, second, third], 2), 0);
        }
        let bytes: Vec<_> = sent.chunks(1).collect();
        (1..=3).for_each(|mode| same(arrives(region, &bytes, mode), 0));
        let mut counted = [0; RECEIVER_SIZE];
        let mut receiver = done(Receiver::fresh(&mut counted));
        let counts: Vec<_> = bytes.iter().map(|byte| receiver.take(byte)).collect();
        same(counts, (1..=sent.len()).map(Ok).collect());
    }
}

/// Fragments of no bytes, wherever they come; and a receiver that got nothing else is closed on no list at all.
fn empty() {
    let (region, sent) = (marked(), one());
    same(arrives(&region, &[], 1), 2);
    same(arrives(&region, &[&[][..]; 5], 1), 2);
    same(arrives(&region, &[&[], &sent, &[], &[]], 1), 0);
    let between: Vec<&[u8]> = sent.chunks(1).flat_map(|byte| [&byte[..0], byte, &byte[..0]]).collect();
    same(arrives(&region, &between, 1), 0);
    let mut full = holding(&longest());
    same(takes(&mut full, &[]), 0);
    same(closes(&many(), &mut full, 3), 0);
}

/// There is room for 868 bytes, whatever is held already. What is too long is refused, and leaves all as it is.
fn room() {
    let sent = longest();
    let long = vec![0x5a; 2 * 65_536 + 868];
    for count in 0..=868 {
        let mut receiver = holding(&sent[..count]);
        for more in [869 - count, 870 - count, 869, 65_536 - count, 65_536, 65_536 + 868 - count, 2 * 65_536 + 868 - count] {
            same(takes(&mut receiver, &long[..more]), 26);
        }
        check(receiver == holding(&sent[..count]), "it is as it was");
        same(takes(&mut receiver, &sent[count..]), 0);
        check(receiver == holding(&sent), "and full");
        same(takes(&mut receiver, &[0]), 26);
    }
    let mut bytes = [0; RECEIVER_SIZE];
    let mut receiver = done(Receiver::fresh(&mut bytes));
    refused(receiver.take(&long[..869]), Refusal::ReceiverFull);
    same(receiver.take(&sent[..867]), Ok(867));
    refused(receiver.take(&sent[866..]), Refusal::ReceiverFull);
    same(receiver.take(&sent[867..]), Ok(EditList::MOST_BYTES));
    refused(receiver.take([0]), Refusal::ReceiverFull);
    let mut region = many();
    same(done(receiver.close(&mut done(Store::open(&mut region)), MODE)).row_count(), 32);
}

/// A receiver of another size is none, though it begins as one.
fn sizes() {
    let (region, sent) = (marked(), one());
    for size in OTHER_SIZES {
        for mut bytes in [holding(&sent), holding(&[]), vec![0xff; 870]] {
            bytes.resize(size, 0);
            same(takes(&mut bytes, &[]), 1);
            same(takes(&mut bytes, &sent), 1);
            same(takes(&mut bytes, &[0; 869]), 1); // before 26
            same(closes(&region, &mut bytes, 1), 1);
            refused(Receiver::open_in(&mut bytes), Refusal::BadRegion);
        }
    }
}

/// Every bit of some receivers, turned over. Beside what each holds stands how many of the 6960 bits make it a bad one: those
/// of the places that are not in use, and those of the count that make it too large, or so small that a byte behind is not 0.
/// A larger count may do, for a 0 is a byte as any other.
fn every_bit() {
    let (one, longest) = (one(), longest());
    for (sent, wanted) in [(&longest[..0], 6950), (&one[..1], 6943), (&one, 6707), (&longest[..867], 24), (&longest, 16)] {
        let mut bad = 0;
        for bit in 0..8 * RECEIVER_SIZE {
            let mut receiver = holding(sent);
            receiver[bit / 8] ^= 1 << (bit % 8);
            bad += u32::from(takes(&mut receiver, b"") == 1);
            takes(&mut receiver, b"more");
        }
        same(bad, wanted);
    }
    let (region, mut bad) = (marked(), 0);
    for bit in 0..8 * RECEIVER_SIZE {
        let mut receiver = holding(&one);
        receiver[bit / 8] ^= 1 << (bit % 8);
        bad += u32::from(closes(&region, &mut receiver, 1) == 1);
    }
    same(bad, 6707);
}

/// Every count, before 31 bytes of which the last is not 0, and before none: those from there to 868 are good.
fn every_count() {
    for (sent, wanted) in [(&one()[..], 838), (&[], 869)] {
        let mut good = 0;
        for count in 0..=u16::MAX {
            let mut receiver = holding(sent);
            receiver[..2].copy_from_slice(&count.to_be_bytes());
            let count = held(&receiver).map(<[u8]>::len);
            good += u32::from(count.is_some());
            same(take_plainly(&mut receiver, &[]).0, u32::from(count.is_none()));
            same(Receiver::open_in(&mut receiver).map(|receiver| receiver.held()).ok(), count);
        }
        same(good, wanted);
    }
}

pub fn all() {
    fresh();
    kept();
    cut();
    empty();
    room();
    sizes();
    every_bit();
    every_count();
}
