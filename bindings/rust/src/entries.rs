//! The twenty-two entries of the archive, and the only `unsafe` of this crate: they are declared here, and each is called here
//! from a function that is safe to call.
//!
//! Three things hold of every call below, which the archive cannot test (include/dehlbazin.h):
//! - Each pointer is good for the length beside it, since both are taken from one reference.
//! - What is lent lies apart. The region is borrowed alone (`&mut`) where the call writes it, so that no other reference leads
//!   into it. Where the call only reads it (`&`), nothing that is written is lent beside it but the answer record, and the
//!   buffer for a packed table's text, which is borrowed alone. The answer record is a new array of [`ask`], which nobody else
//!   knows. With a settings record it is the same: the buffer that one is written to is borrowed alone, and beside one that is
//!   read nothing else is written. A receiver is always borrowed alone, so that the fragment that it takes, and the region that
//!   it is closed on, lie elsewhere.
//! - Calls on one region or on one receiver come one after the other, for the same reason: `&mut` is held by one at a time, and
//!   calls that only read do not disturb each other.
//!
//! The entries never unwind, keep no pointer, and have no memory of their own. Of `u8` every value is good, so whatever they
//! write is one.
#![deny(unsafe_op_in_unsafe_fn)]

use crate::answer::{Answer, Record, ANSWER_SIZE};
use crate::{ReceiverBytes, Region};

/// The size of a region, which has one layout.
pub const REGION_SIZE: usize = 49_549;

/// The size of a receiver: how many bytes it holds, in 2, and room for the longest list.
pub const RECEIVER_SIZE: usize = 870;

/// The length of the longest text of a packed table. A buffer of so many bytes is never too short for one.
pub const PACKED_TEXT_MOST_BYTES: usize = 27_136;

extern "C" {
    fn dehlbazin_start(region: *mut u8, region_len: usize, setting: u64, answer: *mut u8, answer_len: usize) -> u32;
    fn dehlbazin_add_name(
        region: *mut u8,
        region_len: usize,
        name: *const u8,
        name_len: usize,
        answer: *mut u8,
        answer_len: usize,
    ) -> u32;
    fn dehlbazin_name_bytes(region: *const u8, region_len: usize, name: u64, answer: *mut u8, answer_len: usize) -> u32;
    fn dehlbazin_load_loose(
        region: *mut u8,
        region_len: usize,
        name: u64,
        kind: u64,
        number: u64,
        answer: *mut u8,
        answer_len: usize,
    ) -> u32;
    fn dehlbazin_load_packed(
        region: *mut u8,
        region_len: usize,
        name: u64,
        kind: u64,
        number: u64,
        answer: *mut u8,
        answer_len: usize,
    ) -> u32;
    fn dehlbazin_place_lock(
        region: *mut u8,
        region_len: usize,
        kind: u64,
        number: u64,
        answer: *mut u8,
        answer_len: usize,
    ) -> u32;
    fn dehlbazin_lift_lock(
        region: *mut u8,
        region_len: usize,
        kind: u64,
        number: u64,
        answer: *mut u8,
        answer_len: usize,
    ) -> u32;
    fn dehlbazin_prepare(
        region: *mut u8,
        region_len: usize,
        list: *const u8,
        list_len: usize,
        mode: u64,
        answer: *mut u8,
        answer_len: usize,
    ) -> u32;
    fn dehlbazin_commit(
        region: *mut u8,
        region_len: usize,
        committer: u64,
        allowance: u64,
        answer: *mut u8,
        answer_len: usize,
    ) -> u32;
    fn dehlbazin_rollback(region: *mut u8, region_len: usize, answer: *mut u8, answer_len: usize) -> u32;
    fn dehlbazin_read_name(region: *const u8, region_len: usize, name: u64, answer: *mut u8, answer_len: usize) -> u32;
    fn dehlbazin_read_line(
        region: *const u8,
        region_len: usize,
        name: u64,
        place: u64,
        answer: *mut u8,
        answer_len: usize,
    ) -> u32;
    fn dehlbazin_read_row(region: *const u8, region_len: usize, place: u64, answer: *mut u8, answer_len: usize) -> u32;
    fn dehlbazin_write_packed(
        region: *const u8,
        region_len: usize,
        buffer: *mut u8,
        buffer_len: usize,
        answer: *mut u8,
        answer_len: usize,
    ) -> u32;
    fn dehlbazin_read_packed(
        region: *mut u8,
        region_len: usize,
        text: *const u8,
        text_len: usize,
        answer: *mut u8,
        answer_len: usize,
    ) -> u32;
    fn dehlbazin_fresh_receiver(receiver: *mut u8, receiver_len: usize, answer: *mut u8, answer_len: usize) -> u32;
    fn dehlbazin_take_fragment(
        receiver: *mut u8,
        receiver_len: usize,
        fragment: *const u8,
        fragment_len: usize,
        answer: *mut u8,
        answer_len: usize,
    ) -> u32;
    fn dehlbazin_close_receiver(
        region: *mut u8,
        region_len: usize,
        receiver: *mut u8,
        receiver_len: usize,
        mode: u64,
        answer: *mut u8,
        answer_len: usize,
    ) -> u32;
    fn dehlbazin_start_with_settings(
        region: *mut u8,
        region_len: usize,
        record: *const u8,
        record_len: usize,
        answer: *mut u8,
        answer_len: usize,
    ) -> u32;
    fn dehlbazin_read_settings(record: *const u8, record_len: usize, known: u64, answer: *mut u8, answer_len: usize) -> u32;
    fn dehlbazin_read_committer(
        record: *const u8,
        record_len: usize,
        known: u64,
        place: u64,
        answer: *mut u8,
        answer_len: usize,
    ) -> u32;
    fn dehlbazin_write_settings(
        buffer: *mut u8,
        buffer_len: usize,
        version: u64,
        log: u64,
        mode: u64,
        site: u64,
        numbers: *const u64,
        numbers_len: usize,
        lengths: *const u64,
        lengths_len: usize,
        names: *const u8,
        names_len: usize,
        answer: *mut u8,
        answer_len: usize,
    ) -> u32;
}

/// Makes a call with a record of the right size, which it fills.
fn ask(call: impl FnOnce(*mut u8, usize) -> u32) -> Answer {
    let mut record: Record = [0; ANSWER_SIZE];
    let number = call(record.as_mut_ptr(), record.len());
    Answer { number, record }
}

pub(crate) fn start(region: &mut Region, setting: u64) -> Answer {
    // SAFETY: the region is borrowed alone, and the record is ask's own.
    ask(|answer, len| unsafe { dehlbazin_start(region.as_mut_ptr(), REGION_SIZE, setting, answer, len) })
}

pub(crate) fn add_name(region: &mut Region, name: &[u8]) -> Answer {
    let (at, size) = (name.as_ptr(), name.len());
    // SAFETY: the region is borrowed alone, so the name's bytes lie elsewhere; of no bytes none is read. The record is ask's
    // own.
    ask(|answer, len| unsafe { dehlbazin_add_name(region.as_mut_ptr(), REGION_SIZE, at, size, answer, len) })
}

pub(crate) fn name_bytes(region: &Region, name: u64) -> Answer {
    // SAFETY: the region is only read, and the record is ask's own.
    ask(|answer, len| unsafe { dehlbazin_name_bytes(region.as_ptr(), REGION_SIZE, name, answer, len) })
}

pub(crate) fn load_loose(region: &mut Region, name: u64, kind: u64, number: u64) -> Answer {
    // SAFETY: the region is borrowed alone, and the record is ask's own.
    ask(|answer, len| unsafe { dehlbazin_load_loose(region.as_mut_ptr(), REGION_SIZE, name, kind, number, answer, len) })
}

pub(crate) fn load_packed(region: &mut Region, name: u64, kind: u64, number: u64) -> Answer {
    // SAFETY: the region is borrowed alone, and the record is ask's own.
    ask(|answer, len| unsafe { dehlbazin_load_packed(region.as_mut_ptr(), REGION_SIZE, name, kind, number, answer, len) })
}

pub(crate) fn place_lock(region: &mut Region, kind: u64, number: u64) -> Answer {
    // SAFETY: the region is borrowed alone, and the record is ask's own.
    ask(|answer, len| unsafe { dehlbazin_place_lock(region.as_mut_ptr(), REGION_SIZE, kind, number, answer, len) })
}

pub(crate) fn lift_lock(region: &mut Region, kind: u64, number: u64) -> Answer {
    // SAFETY: the region is borrowed alone, and the record is ask's own.
    ask(|answer, len| unsafe { dehlbazin_lift_lock(region.as_mut_ptr(), REGION_SIZE, kind, number, answer, len) })
}

pub(crate) fn prepare(region: &mut Region, list: &[u8], mode: u64) -> Answer {
    let (at, size) = (list.as_ptr(), list.len());
    // SAFETY: the region is borrowed alone, so the list's bytes lie elsewhere, and the record is ask's own.
    ask(|answer, len| unsafe { dehlbazin_prepare(region.as_mut_ptr(), REGION_SIZE, at, size, mode, answer, len) })
}

pub(crate) fn commit(region: &mut Region, committer: u64, allowance: u64) -> Answer {
    // SAFETY: the region is borrowed alone, and the record is ask's own.
    ask(|answer, len| unsafe { dehlbazin_commit(region.as_mut_ptr(), REGION_SIZE, committer, allowance, answer, len) })
}

pub(crate) fn rollback(region: &mut Region) -> Answer {
    // SAFETY: the region is borrowed alone, and the record is ask's own.
    ask(|answer, len| unsafe { dehlbazin_rollback(region.as_mut_ptr(), REGION_SIZE, answer, len) })
}

pub(crate) fn read_name(region: &Region, name: u64) -> Answer {
    // SAFETY: the region is only read, and the record is ask's own.
    ask(|answer, len| unsafe { dehlbazin_read_name(region.as_ptr(), REGION_SIZE, name, answer, len) })
}

pub(crate) fn read_line(region: &Region, name: u64, place: u64) -> Answer {
    // SAFETY: the region is only read, and the record is ask's own.
    ask(|answer, len| unsafe { dehlbazin_read_line(region.as_ptr(), REGION_SIZE, name, place, answer, len) })
}

pub(crate) fn read_row(region: &Region, place: u64) -> Answer {
    // SAFETY: the region is only read, and the record is ask's own.
    ask(|answer, len| unsafe { dehlbazin_read_row(region.as_ptr(), REGION_SIZE, place, answer, len) })
}

pub(crate) fn write_packed(region: &Region, buffer: &mut [u8]) -> Answer {
    let (at, size) = (buffer.as_mut_ptr(), buffer.len());
    // SAFETY: the region is only read. The buffer is borrowed alone, so it lies elsewhere, and the record is ask's own.
    ask(|answer, len| unsafe { dehlbazin_write_packed(region.as_ptr(), REGION_SIZE, at, size, answer, len) })
}

pub(crate) fn read_packed(region: &mut Region, text: &[u8]) -> Answer {
    let (at, size) = (text.as_ptr(), text.len());
    // SAFETY: the region is borrowed alone, so the text's bytes lie elsewhere; of no bytes none is read. The record is ask's
    // own.
    ask(|answer, len| unsafe { dehlbazin_read_packed(region.as_mut_ptr(), REGION_SIZE, at, size, answer, len) })
}

pub(crate) fn fresh_receiver(receiver: &mut ReceiverBytes) -> Answer {
    // SAFETY: the receiver is borrowed alone, and the record is ask's own.
    ask(|answer, len| unsafe { dehlbazin_fresh_receiver(receiver.as_mut_ptr(), RECEIVER_SIZE, answer, len) })
}

pub(crate) fn take_fragment(receiver: &mut ReceiverBytes, fragment: &[u8]) -> Answer {
    let (at, size) = (fragment.as_ptr(), fragment.len());
    // SAFETY: the receiver is borrowed alone, so the fragment's bytes lie elsewhere; of no bytes none is read. The record is
    // ask's own.
    ask(|answer, len| unsafe { dehlbazin_take_fragment(receiver.as_mut_ptr(), RECEIVER_SIZE, at, size, answer, len) })
}

pub(crate) fn close_receiver(region: &mut Region, receiver: &mut ReceiverBytes, mode: u64) -> Answer {
    let (at, size) = (receiver.as_mut_ptr(), RECEIVER_SIZE);
    // SAFETY: the region and the receiver are each borrowed alone, so they lie apart, and the record is ask's own.
    ask(|answer, len| unsafe { dehlbazin_close_receiver(region.as_mut_ptr(), REGION_SIZE, at, size, mode, answer, len) })
}

pub(crate) fn start_with_settings(region: &mut Region, record: &[u8]) -> Answer {
    let (at, size) = (record.as_ptr(), record.len());
    // SAFETY: the region is borrowed alone, so the settings record lies elsewhere, and the answer record is ask's own.
    ask(|answer, len| unsafe { dehlbazin_start_with_settings(region.as_mut_ptr(), REGION_SIZE, at, size, answer, len) })
}

pub(crate) fn read_settings(record: &[u8], known: u64) -> Answer {
    // SAFETY: the settings record is only read, and the answer record is ask's own.
    ask(|answer, len| unsafe { dehlbazin_read_settings(record.as_ptr(), record.len(), known, answer, len) })
}

pub(crate) fn read_committer(record: &[u8], known: u64, place: u64) -> Answer {
    // SAFETY: the settings record is only read, and the answer record is ask's own.
    ask(|answer, len| unsafe { dehlbazin_read_committer(record.as_ptr(), record.len(), known, place, answer, len) })
}

/// The numbers of a settings record that stand before its committers.
pub(crate) struct Head {
    pub(crate) version: u64,
    pub(crate) log: u64,
    pub(crate) mode: u64,
    pub(crate) site: u64,
}

pub(crate) fn write_settings(buffer: &mut [u8], head: &Head, numbers: &[u64], lengths: &[u64], names: &[u8]) -> Answer {
    // SAFETY: the buffer is borrowed alone, so the three lists lie elsewhere, and the answer record is ask's own. A list of
    // numbers goes with how many it has.
    ask(|answer, len| unsafe {
        dehlbazin_write_settings(
            buffer.as_mut_ptr(),
            buffer.len(),
            head.version,
            head.log,
            head.mode,
            head.site,
            numbers.as_ptr(),
            numbers.len(),
            lengths.as_ptr(),
            lengths.len(),
            names.as_ptr(),
            names.len(),
            answer,
            len,
        )
    })
}
