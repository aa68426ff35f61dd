//! The archive, through its C interface. Regions, receivers and records are always of the right size here.

use crate::answer::Reply;
use crate::case::{Case, Change, Edit, End, Expected, Line, Loose, Store, Target};
use crate::image;

/// The interface of include/dehlbazin.h.
mod entries {
    extern "C" {
        pub fn dehlbazin_start(region: *mut u8, len: usize, setting: u64, answer: *mut u8, answer_len: usize) -> u32;
        pub fn dehlbazin_add_name(
            region: *mut u8,
            len: usize,
            name: *const u8,
            name_len: usize,
            answer: *mut u8,
            answer_len: usize,
        ) -> u32;
        pub fn dehlbazin_load_loose(
            region: *mut u8,
            len: usize,
            name: u64,
            kind: u64,
            number: u64,
            answer: *mut u8,
            answer_len: usize,
        ) -> u32;
        pub fn dehlbazin_load_packed(
            region: *mut u8,
            len: usize,
            name: u64,
            kind: u64,
            number: u64,
            answer: *mut u8,
            answer_len: usize,
        ) -> u32;
        pub fn dehlbazin_place_lock(
            region: *mut u8,
            len: usize,
            kind: u64,
            number: u64,
            answer: *mut u8,
            answer_len: usize,
        ) -> u32;
        pub fn dehlbazin_prepare(
            region: *mut u8,
            len: usize,
            list: *const u8,
            list_len: usize,
            mode: u64,
            answer: *mut u8,
            answer_len: usize,
        ) -> u32;
        pub fn dehlbazin_fresh_receiver(receiver: *mut u8, len: usize, answer: *mut u8, answer_len: usize) -> u32;
        pub fn dehlbazin_take_fragment(
            receiver: *mut u8,
            len: usize,
            fragment: *const u8,
            fragment_len: usize,
            answer: *mut u8,
            answer_len: usize,
        ) -> u32;
        pub fn dehlbazin_close_receiver(
            region: *mut u8,
            len: usize,
            receiver: *mut u8,
            receiver_len: usize,
            mode: u64,
            answer: *mut u8,
            answer_len: usize,
        ) -> u32;
        pub fn dehlbazin_commit(
            region: *mut u8,
            len: usize,
            committer: u64,
            allowance: u64,
            answer: *mut u8,
            answer_len: usize,
        ) -> u32;
        pub fn dehlbazin_rollback(region: *mut u8, len: usize, answer: *mut u8, answer_len: usize) -> u32;
        pub fn dehlbazin_read_name(region: *const u8, len: usize, name: u64, answer: *mut u8, answer_len: usize) -> u32;
        pub fn dehlbazin_read_line(
            region: *const u8,
            len: usize,
            name: u64,
            place: u64,
            answer: *mut u8,
            answer_len: usize,
        ) -> u32;
        pub fn dehlbazin_read_row(region: *const u8, len: usize, place: u64, answer: *mut u8, answer_len: usize) -> u32;
        pub fn dehlbazin_write_packed(
            region: *const u8,
            len: usize,
            buffer: *mut u8,
            buffer_len: usize,
            answer: *mut u8,
            answer_len: usize,
        ) -> u32;
        pub fn dehlbazin_read_packed(
            region: *mut u8,
            len: usize,
            text: *const u8,
            text_len: usize,
            answer: *mut u8,
            answer_len: usize,
        ) -> u32;
    }
}

/// A number and the sixteen places of the record.
#[derive(Debug, Clone, Copy, PartialEq, Eq)]
pub struct Reported {
    pub number: u32,
    pub places: [u64; 16],
}

impl Reported {
    /// Whether it says the same as a reply of the other side, and all other places are 0.
    pub fn is(&self, reply: &Reply) -> bool {
        self.number == reply.number && self.places[..5] == reply.places && self.places[5..] == [0; 11]
    }

    /// Says in words that another number, or other places, must be answered.
    pub fn must_be(&self, number: u32, places: &[u64]) -> Result<(), String> {
        match self.is(&Reply::new(number, places)) {
            true => Ok(()),
            false => Err(format!("{} is answered, not {number} {places:?}", self.said())),
        }
    }

    pub fn said(&self) -> String {
        format!("{} {:?}", self.number, self.places)
    }
}

/// Makes one call: the entry gets the region, or the receiver, and the record as pointers with their lengths.
macro_rules! call {
    ($region:expr, $pointer:ident, $entry:ident $(, $argument:expr)*) => {{
        let mut answer = [0u8; 128];
        // SAFETY: each pointer is good for the length beside it, and the slices are borrowed apart from each other.
        let number = unsafe {
            entries::$entry($region.$pointer(), $region.len() $(, $argument)*, answer.as_mut_ptr(), answer.len())
        };
        report(number, &answer)
    }};
}

fn report(number: u32, answer: &[u8; 128]) -> Reported {
    let mut places = [0; 16];
    for (place, bytes) in places.iter_mut().zip(answer.chunks_exact(8)) {
        *place = bytes.iter().fold(0, |number, byte| number << 8 | u64::from(*byte));
    }
    Reported { number, places }
}

pub fn start(region: &mut [u8], setting: u64) -> Reported {
    call!(region, as_mut_ptr, dehlbazin_start, setting)
}

pub fn add_name(region: &mut [u8], name: &str) -> Reported {
    call!(region, as_mut_ptr, dehlbazin_add_name, name.as_ptr(), name.len())
}

pub fn load_loose(region: &mut [u8], name: usize, loose: Option<Loose>) -> Reported {
    let [kind, number] = Loose::numbers(loose);
    call!(region, as_mut_ptr, dehlbazin_load_loose, name as u64, kind, number)
}

pub fn load_packed(region: &mut [u8], name: usize, packed: Option<u64>) -> Reported {
    call!(region, as_mut_ptr, dehlbazin_load_packed, name as u64, packed.is_some().into(), packed.unwrap_or(0))
}

/// What a foreign lock is placed on.
#[derive(Debug, Clone, Copy, PartialEq, Eq)]
pub enum Lockable {
    Name(usize),
    PackedTable,
}

pub fn place_lock(region: &mut [u8], what: Lockable) -> Reported {
    let (kind, number) = match what {
        Lockable::Name(name) => (0, name as u64),
        Lockable::PackedTable => (1, 0),
    };
    call!(region, as_mut_ptr, dehlbazin_place_lock, kind, number)
}

pub fn prepare_bytes(region: &mut [u8], list: &[u8], mode: u8) -> Reported {
    call!(region, as_mut_ptr, dehlbazin_prepare, list.as_ptr(), list.len(), mode.into())
}

pub fn prepare(region: &mut [u8], edits: &[Edit], mode: u8) -> Reported {
    prepare_bytes(region, &image::encode_list(edits), mode)
}

pub fn fresh_receiver(receiver: &mut [u8]) -> Reported {
    call!(receiver, as_mut_ptr, dehlbazin_fresh_receiver)
}

pub fn take_fragment(receiver: &mut [u8], fragment: &[u8]) -> Reported {
    call!(receiver, as_mut_ptr, dehlbazin_take_fragment, fragment.as_ptr(), fragment.len())
}

pub fn close_receiver(region: &mut [u8], receiver: &mut [u8], mode: u8) -> Reported {
    call!(region, as_mut_ptr, dehlbazin_close_receiver, receiver.as_mut_ptr(), receiver.len(), mode.into())
}

pub fn commit(region: &mut [u8], committer: u16, allowance: u64) -> Reported {
    call!(region, as_mut_ptr, dehlbazin_commit, committer.into(), allowance)
}

pub fn rollback(region: &mut [u8]) -> Reported {
    call!(region, as_mut_ptr, dehlbazin_rollback)
}

pub fn read_name(region: &[u8], name: usize) -> Reported {
    call!(region, as_ptr, dehlbazin_read_name, name as u64)
}

pub fn read_line(region: &[u8], name: usize, place: usize) -> Reported {
    call!(region, as_ptr, dehlbazin_read_line, name as u64, place as u64)
}

pub fn read_row(region: &[u8], place: usize) -> Reported {
    call!(region, as_ptr, dehlbazin_read_row, place as u64)
}

pub fn write_packed(region: &[u8], buffer: &mut [u8]) -> Reported {
    call!(region, as_ptr, dehlbazin_write_packed, buffer.as_mut_ptr(), buffer.len())
}

pub fn read_packed(region: &mut [u8], text: &str) -> Reported {
    call!(region, as_mut_ptr, dehlbazin_read_packed, text.as_ptr(), text.len())
}

/// Ends the prepared transaction as the case says.
pub fn end(region: &mut [u8], case: &Case) -> Reported {
    match case.end {
        End::Commit { committer, allowance } => commit(region, committer, allowance),
        End::Rollback => rollback(region),
    }
}

/// The region of a store, made by calls alone. None if calls cannot make it: lines with setting 0, or from an object to itself.
pub fn by_calls(store: &Store) -> Option<Vec<u8>> {
    let state = &store.state;
    if state.lines.iter().any(|line| store.setting == 0 || line.previous == line.new) {
        return None;
    }
    let mut region = vec![0; image::SIZE];
    done(start(&mut region, store.setting.into()));
    for (number, name) in store.names.iter().enumerate() {
        assert_eq!(done(add_name(&mut region, name)), number as u64);
    }
    for line in &state.lines {
        make_line(&mut region, line);
    }
    for name in 0..store.names.len() {
        done(load_loose(&mut region, name, state.loose[name]));
        done(load_packed(&mut region, name, state.packed[name]));
        if state.locks[name] {
            done(place_lock(&mut region, Lockable::Name(name)));
        }
    }
    if state.packed_lock {
        done(place_lock(&mut region, Lockable::PackedTable));
    }
    Some(region)
}

/// Commits a log-only update that writes this line and nothing else.
fn make_line(region: &mut [u8], line: &Line) {
    let before = (line.previous != 0).then_some(Loose::Value(Target::Object(line.previous)));
    done(load_loose(region, line.name, before));
    let change = Change::Update { new: Target::Object(line.new), force: true, message: line.message };
    let edit = Edit { name: line.name, change, deref: false, log_only: true, expected: Expected::Any };
    assert_eq!(done(prepare(region, &[edit], 1)), 1);
    assert_eq!(done(commit(region, line.committer, 1)), 1);
    done(load_loose(region, line.name, None));
}

fn done(reported: Reported) -> u64 {
    assert_eq!(reported.number, 0, "a call that sets a store up is refused");
    reported.places[0]
}
