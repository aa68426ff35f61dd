//! The entries of the archive as include/dehlbazin.h has them, declared a second time: so that what the crate declares and
//! passes is compared with something that does not go through it.

use dehlbazin::Region;

pub type Record = [u8; 128];

/// The kinds of what a lock is placed on.
pub const LOCKABLE_NAME: u64 = 0;
pub const LOCKABLE_PACKED_TABLE: u64 = 1;

/// Place `i` of a record, big-endian.
pub fn place(record: &Record, i: usize) -> u64 {
    u64::from_be_bytes(record[8 * i..8 * i + 8].try_into().unwrap())
}

/// Declares an entry, and a function that lends it what it was lent: a region, bytes and a record, three references that lie
/// apart. Those of a packed table's text, of a settings record and of a receiver take an answer record of any size.
macro_rules! entry {
    ($entry:ident, $name:ident, mut $(, [$bytes:ident])? $(, $number:ident)*) => {
        pub fn $name(region: &mut Region, $($bytes: &[u8],)? $($number: u64,)* record: &mut Record) -> u32 {
            extern "C" {
                fn $entry(r: *mut u8, l: usize, $($bytes: *const u8, n: usize,)? $($number: u64,)* a: *mut u8, k: usize) -> u32;
            }
            let (at, size) = (region.as_mut_ptr(), region.len());
            // SAFETY: each pointer is good for the length beside it.
            unsafe { $entry(at, size, $($bytes.as_ptr(), $bytes.len(),)? $($number,)* record.as_mut_ptr(), record.len()) }
        }
    };
    ($entry:ident, $name:ident, read $(, $number:ident)*) => {
        pub fn $name(region: &Region, $($number: u64,)* record: &mut Record) -> u32 {
            extern "C" {
                fn $entry(r: *const u8, l: usize, $($number: u64,)* a: *mut u8, k: usize) -> u32;
            }
            // SAFETY: each pointer is good for the length beside it.
            unsafe { $entry(region.as_ptr(), region.len(), $($number,)* record.as_mut_ptr(), record.len()) }
        }
    };
    ($entry:ident, $name:ident, settings $(, $number:ident)*) => {
        pub fn $name(settings: &[u8], $($number: u64,)* answer: &mut [u8]) -> u32 {
            extern "C" {
                fn $entry(r: *const u8, l: usize, $($number: u64,)* a: *mut u8, k: usize) -> u32;
            }
            // SAFETY: each pointer is good for the length beside it.
            unsafe { $entry(settings.as_ptr(), settings.len(), $($number,)* answer.as_mut_ptr(), answer.len()) }
        }
    };
}

entry!(dehlbazin_start, start, mut, setting);
entry!(dehlbazin_add_name, add_name, mut, [name]);
entry!(dehlbazin_name_bytes, name_bytes, read, name);
entry!(dehlbazin_load_loose, load_loose, mut, name, kind, number);
entry!(dehlbazin_load_packed, load_packed, mut, name, kind, number);
entry!(dehlbazin_place_lock, place_lock, mut, kind, number);
entry!(dehlbazin_lift_lock, lift_lock, mut, kind, number);
entry!(dehlbazin_prepare, prepare, mut, [list], mode);
entry!(dehlbazin_commit, commit, mut, committer, allowance);
entry!(dehlbazin_rollback, rollback, mut);
entry!(dehlbazin_read_name, read_name, read, name);
entry!(dehlbazin_read_line, read_line, read, name, place);
entry!(dehlbazin_read_row, read_row, read, place);
entry!(dehlbazin_read_settings, read_settings, settings, known);
entry!(dehlbazin_read_committer, read_committer, settings, known, place);

/// With a region and a buffer of any size.
pub fn write_packed(region: &[u8], buffer: &mut [u8], answer: &mut [u8]) -> u32 {
    extern "C" {
        fn dehlbazin_write_packed(r: *const u8, l: usize, b: *mut u8, n: usize, a: *mut u8, k: usize) -> u32;
    }
    let (at, size) = (buffer.as_mut_ptr(), buffer.len());
    let (answer_at, answer_size) = (answer.as_mut_ptr(), answer.len());
    // SAFETY: each pointer is good for the length beside it.
    unsafe { dehlbazin_write_packed(region.as_ptr(), region.len(), at, size, answer_at, answer_size) }
}

/// With a region of any size.
pub fn read_packed(region: &mut [u8], text: &[u8], answer: &mut [u8]) -> u32 {
    extern "C" {
        fn dehlbazin_read_packed(r: *mut u8, l: usize, t: *const u8, n: usize, a: *mut u8, k: usize) -> u32;
    }
    let (at, size) = (text.as_ptr(), text.len());
    let (answer_at, answer_size) = (answer.as_mut_ptr(), answer.len());
    // SAFETY: each pointer is good for the length beside it.
    unsafe { dehlbazin_read_packed(region.as_mut_ptr(), region.len(), at, size, answer_at, answer_size) }
}

/// With a receiver of any size.
pub fn fresh_receiver(receiver: &mut [u8], answer: &mut [u8]) -> u32 {
    extern "C" {
        fn dehlbazin_fresh_receiver(r: *mut u8, l: usize, a: *mut u8, k: usize) -> u32;
    }
    // SAFETY: each pointer is good for the length beside it.
    unsafe { dehlbazin_fresh_receiver(receiver.as_mut_ptr(), receiver.len(), answer.as_mut_ptr(), answer.len()) }
}

/// The same.
pub fn take_fragment(receiver: &mut [u8], fragment: &[u8], answer: &mut [u8]) -> u32 {
    extern "C" {
        fn dehlbazin_take_fragment(r: *mut u8, l: usize, f: *const u8, n: usize, a: *mut u8, k: usize) -> u32;
    }
    let (at, size) = (fragment.as_ptr(), fragment.len());
    let (answer_at, answer_size) = (answer.as_mut_ptr(), answer.len());
    // SAFETY: each pointer is good for the length beside it.
    unsafe { dehlbazin_take_fragment(receiver.as_mut_ptr(), receiver.len(), at, size, answer_at, answer_size) }
}

/// With a region of any size too.
pub fn close_receiver(region: &mut [u8], receiver: &mut [u8], mode: u64, answer: &mut [u8]) -> u32 {
    extern "C" {
        fn dehlbazin_close_receiver(r: *mut u8, l: usize, c: *mut u8, n: usize, mode: u64, a: *mut u8, k: usize) -> u32;
    }
    let (at, size) = (receiver.as_mut_ptr(), receiver.len());
    let (answer_at, answer_size) = (answer.as_mut_ptr(), answer.len());
    // SAFETY: each pointer is good for the length beside it.
    unsafe { dehlbazin_close_receiver(region.as_mut_ptr(), region.len(), at, size, mode, answer_at, answer_size) }
}

/// With a region of any size.
pub fn start_with_settings(region: &mut [u8], settings: &[u8], answer: &mut [u8]) -> u32 {
    extern "C" {
        fn dehlbazin_start_with_settings(r: *mut u8, l: usize, s: *const u8, n: usize, a: *mut u8, k: usize) -> u32;
    }
    let (at, size) = (settings.as_ptr(), settings.len());
    let (answer_at, answer_size) = (answer.as_mut_ptr(), answer.len());
    // SAFETY: each pointer is good for the length beside it.
    unsafe { dehlbazin_start_with_settings(region.as_mut_ptr(), region.len(), at, size, answer_at, answer_size) }
}

/// The head is version, log setting, mode and site.
pub fn write_settings(
    buffer: &mut [u8],
    head: [u64; 4],
    numbers: &[u64],
    lengths: &[u64],
    names: &[u8],
    answer: &mut [u8],
) -> u32 {
    extern "C" {
        #[rustfmt::skip]
        fn dehlbazin_write_settings(
            b: *mut u8,
            l: usize,
            version: u64,
            log: u64,
            mode: u64,
            site: u64,
            numbers: *const u64,
            n: usize,
            lengths: *const u64,
            m: usize,
            names: *const u8,
            o: usize,
            a: *mut u8,
            k: usize,
        ) -> u32;
    }
    let [version, log, mode, site] = head;
    let (at, size) = (buffer.as_mut_ptr(), buffer.len());
    let ((n, n_len), (m, m_len), (o, o_len)) =
        ((numbers.as_ptr(), numbers.len()), (lengths.as_ptr(), lengths.len()), (names.as_ptr(), names.len()));
    let (answer_at, answer_size) = (answer.as_mut_ptr(), answer.len());
    // SAFETY: each pointer is good for the length beside it, and the numbers' are aligned.
    unsafe {
        dehlbazin_write_settings(at, size, version, log, mode, site, n, n_len, m, m_len, o, o_len, answer_at, answer_size)
    }
}
