//! A receiver as bytes, written here from include/dehlbazin.h alone: so that what the archive makes of one is compared with
//! something that does not go through it. The same is made by the plain entries, and through the crate.

use crate::plain;
use crate::record::asked;
use crate::step::{bare, mode_of, reply, Reply};
use crate::tally::{check, same};
use dehlbazin::*;

/// The bytes of a receiver that holds these.
pub fn holding(bytes: &[u8]) -> Vec<u8> {
    let mut receiver = vec![(bytes.len() >> 8) as u8, bytes.len() as u8];
    receiver.extend(bytes);
    receiver.resize(870, 0);
    receiver
}

/// What is held, if the bytes are a good receiver.
pub fn held(receiver: &[u8]) -> Option<&[u8]> {
    if receiver.len() != 870 {
        return None;
    }
    let count = usize::from(receiver[0]) << 8 | usize::from(receiver[1]);
    let unused = receiver.get(2 + count..)?;
    unused.iter().all(|&byte| byte == 0).then(|| &receiver[2..2 + count])
}

/// What taking a fragment answers, and the receiver as it is left.
pub fn taken(receiver: &[u8], fragment: &[u8]) -> (Reply, Vec<u8>) {
    match held(receiver) {
        None => (bare(1), receiver.to_vec()),
        Some(held) if held.len() + fragment.len() > 868 => (bare(26), receiver.to_vec()),
        Some(held) => {
            let joined = [held, fragment].concat();
            let mut reply = bare(0);
            reply.1[0] = joined.len() as u64;
            (reply, holding(&joined))
        }
    }
}

/// What closing answers, and the region and the receiver as they are left. What is held is prepared by the plain entry.
pub fn closed(region: &Region, receiver: &[u8], mode: u64) -> (Reply, Box<Region>, Vec<u8>) {
    let mut after = Box::new(*region);
    match held(receiver) {
        None => (bare(1), after, receiver.to_vec()),
        Some(held) => (prepare_plainly(&mut after, held, mode), after, holding(&[])),
    }
}

// ---- by the plain entries

pub fn prepare_plainly(region: &mut Region, list: &[u8], mode: u64) -> Reply {
    asked(|answer| plain::prepare(region, list, mode, answer.try_into().unwrap()))
}

pub fn fresh_plainly(receiver: &mut [u8]) -> Reply {
    asked(|answer| plain::fresh_receiver(receiver, answer))
}

pub fn take_plainly(receiver: &mut [u8], fragment: &[u8]) -> Reply {
    asked(|answer| plain::take_fragment(receiver, fragment, answer))
}

pub fn close_plainly(region: &mut [u8], receiver: &mut [u8], mode: u64) -> Reply {
    asked(|answer| plain::close_receiver(region, receiver, mode, answer))
}

// ---- through the crate

pub fn take_through(receiver: &mut [u8], fragment: &[u8]) -> Reply {
    let held = Receiver::open_in(receiver).and_then(|mut receiver| receiver.take(fragment));
    reply(held, |held| vec![held as u64])
}

/// On a good region: another has no store.
pub fn close_through(region: &mut Region, receiver: &mut [u8], mode: u64) -> Reply {
    let rows = Receiver::open_in(receiver).and_then(|mut receiver| {
        let mut store = Store::open(region)?;
        let transaction = receiver.close(&mut store, mode_of(mode))?;
        let rows = transaction.row_count();
        transaction.leave_prepared();
        Ok(rows)
    });
    reply(rows, |rows| vec![rows])
}

// ---- both ways, and as it should be

/// Takes a fragment, and gives the number.
#[track_caller]
pub fn takes(receiver: &mut [u8], fragment: &[u8]) -> u32 {
    let (wanted, after) = taken(receiver, fragment);
    let mut other = receiver.to_vec();
    same(take_plainly(&mut other, fragment), wanted);
    check(other == after, "the receiver that the plain entry leaves");
    same(take_through(receiver, fragment), wanted);
    check(receiver == after, "the receiver that the crate leaves");
    wanted.0
}

/// Closes it on a good region, of which a copy is changed, and gives the number.
#[track_caller]
pub fn closes(region: &Region, receiver: &mut [u8], mode: u64) -> u32 {
    let (wanted, region_after, after) = closed(region, receiver, mode);
    let (mut copy, mut other) = (Box::new(*region), receiver.to_vec());
    same(close_plainly(&mut copy[..], &mut other, mode), wanted);
    check(copy == region_after && other == after, "the region and the receiver that the plain entry leaves");
    *copy = *region;
    same(close_through(&mut copy, receiver, mode), wanted);
    check(copy == region_after && receiver == after, "the region and the receiver that the crate leaves");
    wanted.0
}

/// A list in fragments, from a receiver that is fresh, and what closing answers then.
#[track_caller]
pub fn arrives(region: &Region, fragments: &[&[u8]], mode: u64) -> u32 {
    let mut receiver = holding(&[]);
    fragments.iter().for_each(|fragment| same(takes(&mut receiver, fragment), 0));
    check(receiver == holding(&fragments.concat()), "the fragments joined");
    closes(region, &mut receiver, mode)
}
