//! The text of a packed table, written and read here from docs/PACKED-TEXT.md alone, on the bytes that docs/LAYOUT.md says: so
//! that what the archive writes and reads is compared with something that does not go through it. The same is made by the plain
//! entries, and through the crate.

use crate::plain;
use crate::record::asked;
use crate::step::{bare, reply, Reply};
use crate::tally::{check, same};
use dehlbazin::*;
use std::collections::BTreeMap;

// docs/LAYOUT.md: where that stands in a region which a text is about.
const COUNT_OF_NAMES: usize = 6;
const MODE_PREPARED: usize = 10;
const NAMES: usize = 13;
const PACKED: usize = 18_957;
const MOST_NAMES: usize = 256;

pub fn name_count(region: &Region) -> usize {
    usize::from(region[COUNT_OF_NAMES]) << 8 | usize::from(region[COUNT_OF_NAMES + 1])
}

pub fn name_of(region: &Region, n: usize) -> &[u8] {
    let slot = &region[NAMES + 65 * n..][..65];
    &slot[1..1 + usize::from(slot[0])]
}

fn packed_of(region: &Region, n: usize) -> u64 {
    u64::from_be_bytes(region[PACKED + 8 * n..][..8].try_into().unwrap())
}

// ---- writing

/// A ref line.
pub fn ref_line(object: u64, name: impl AsRef<[u8]>) -> Vec<u8> {
    [format!("{object:040x} ").as_bytes(), name.as_ref(), b"\n"].concat()
}

/// The text of a store's packed table.
pub fn text_of(region: &Region) -> Vec<u8> {
    let values = (0..name_count(region)).map(|n| (name_of(region, n), packed_of(region, n)));
    let sorted: BTreeMap<_, _> = values.filter(|&(_, object)| object != 0).collect();
    sorted.into_iter().flat_map(|(name, object)| ref_line(object, name)).collect()
}

// ---- reading

/// docs/SPEC.md, the store: what is a name.
pub fn is_name(name: &[u8]) -> bool {
    let capitals = name.iter().all(|&byte| byte.is_ascii_uppercase() || byte == b'_') && name.first() != Some(&b'_');
    let refs = name.strip_prefix(b"refs/").map_or(false, |rest| rest.split(|&byte| byte == b'/').all(is_component));
    let dots = name.windows(2).any(|pair| pair == b"..") || name.ends_with(b".");
    (1..=64).contains(&name.len()) && (capitals || refs && !dots)
}

fn is_component(component: &[u8]) -> bool {
    let fine = |byte: &u8| byte.is_ascii_alphanumeric() || b"-_.".contains(byte);
    component.iter().all(fine) && !component.is_empty() && !component.starts_with(b".") && !component.ends_with(b".lock")
}

/// The same: what is packable.
fn is_packable(name: &[u8]) -> bool {
    let others: [&[u8]; 3] = [b"refs/bisect/", b"refs/worktree/", b"refs/rewritten/"];
    name.starts_with(b"refs/") && !others.iter().any(|other| name.starts_with(other))
}

enum Line<'t> {
    Ref(u64, &'t [u8]),
    Comment,
    Peeled,
}

fn are_digits(bytes: &[u8]) -> bool {
    bytes.iter().all(|byte| b"0123456789abcdef".contains(byte))
}

/// Which of the grammar's lines it is, wherever it stands. It has its line feed, if it has one.
fn line(bytes: &[u8]) -> Option<Line<'_>> {
    let line = bytes.strip_suffix(b"\n")?;
    match line.first()? {
        b'#' => Some(Line::Comment),
        b'^' => Some(Line::Peeled).filter(|_| line.len() == 41 && are_digits(&line[1..])),
        _ => {
            let (digits, name) = (line.get(..40)?, line.get(40..)?.strip_prefix(b" ")?);
            let fits = are_digits(digits) && digits.starts_with(&[b'0'; 24]);
            let object = u64::from_str_radix(std::str::from_utf8(&digits[24..]).ok()?, 16).ok()?;
            Some(Line::Ref(object, name)).filter(|_| fits && is_name(name))
        }
    }
}

/// What a ref line says of a name, which is added where it is new; or the number of the refusal.
fn put(region: &mut Region, object: u64, name: &[u8]) -> Result<(), u32> {
    if object == 0 || !is_packable(name) {
        return Err(21);
    }
    let count = name_count(region);
    let n = (0..count).find(|&n| name_of(region, n) == name).unwrap_or(count);
    if n == MOST_NAMES {
        return Err(19);
    }
    if n == count {
        region[COUNT_OF_NAMES..][..2].copy_from_slice(&(n as u16 + 1).to_be_bytes());
        region[NAMES + 65 * n] = name.len() as u8;
        region[NAMES + 65 * n + 1..][..name.len()].copy_from_slice(name);
    }
    region[PACKED + 8 * n..][..8].copy_from_slice(&object.to_be_bytes());
    Ok(())
}

/// Every line of a text, into a region; how many refs there were, or the number of the refusal and what stands in place 0.
fn put_all(region: &mut Region, text: &[u8]) -> Result<u64, (u32, u64)> {
    region[PACKED..PACKED + 8 * MOST_NAMES].fill(0);
    let (mut refs, mut last, mut behind_ref) = (0, &b""[..], false);
    let lines = text.split_inclusive(|&byte| byte == b'\n').filter(|line| !line.is_empty());
    for (number, bytes) in (1..).zip(lines) {
        match line(bytes) {
            Some(Line::Comment) => behind_ref = false,
            Some(Line::Peeled) if behind_ref => behind_ref = false,
            Some(Line::Ref(object, name)) if last < name => {
                put(region, object, name).map_err(|number| (number, 0))?;
                (refs, last, behind_ref) = (refs + 1, name, true);
            }
            _ => return Err((27, number)),
        }
    }
    Ok(refs)
}

/// What reading a text into a good region answers, and the region as it is left.
pub fn after_reading(region: &Region, text: &[u8]) -> (Reply, Box<Region>) {
    let mut after = Box::new(*region);
    let result = if region[MODE_PREPARED] == 0 { put_all(&mut after, text) } else { Err((15, 0)) };
    let (number, first) = result.map_or_else(|refusal| refusal, |refs| (0, refs));
    if number != 0 {
        *after = *region;
    }
    (with_first(number, first), after)
}

pub fn with_first(number: u32, first: u64) -> Reply {
    let mut reply = bare(number);
    reply.1[0] = first;
    reply
}

// ---- by the plain entries

pub fn read_plainly(region: &mut [u8], text: &[u8]) -> Reply {
    asked(|answer| plain::read_packed(region, text, answer))
}

pub fn write_plainly(region: &[u8], buffer: &mut [u8]) -> Reply {
    asked(|answer| plain::write_packed(region, buffer, answer))
}

// ---- through the crate

pub fn read_through(region: &mut [u8], text: &[u8]) -> Reply {
    reply(Store::open_in(region).and_then(|mut store| store.read_packed(text)), |refs| vec![refs])
}

pub fn write_through(region: &[u8], buffer: &mut [u8]) -> Reply {
    reply(View::open_in(region).and_then(|view| view.write_packed(buffer)), |length| vec![length as u64])
}

// ---- both ways, and as it should be

/// Reads a text into a good region, and gives the number and what stands in place 0.
#[track_caller]
pub fn reads(region: &mut Region, text: &[u8]) -> (u32, u64) {
    let (wanted, after) = after_reading(region, text);
    let mut other = Box::new(*region);
    same(read_plainly(&mut other[..], text), wanted);
    check(other == after, "the region that the plain entry leaves");
    same(read_through(region, text), wanted);
    check(*region == *after, "the region that the crate leaves");
    (wanted.0, wanted.1[0])
}

/// Reads it into a copy.
#[track_caller]
pub fn would_read(region: &Region, text: &[u8]) -> (u32, u64) {
    reads(&mut Box::new(*region), text)
}

/// Writes the text of a good region into a buffer of so many bytes, and gives the number.
#[track_caller]
pub fn writes(region: &Region, size: usize) -> u32 {
    let text = text_of(region);
    let mut after = vec![0xa5; size];
    let wanted = match after.get_mut(..text.len()) {
        Some(beginning) => {
            beginning.copy_from_slice(&text);
            with_first(0, text.len() as u64)
        }
        None => bare(32),
    };
    for write in [write_plainly, write_through] {
        let mut buffer = vec![0xa5; size];
        same(write(region, &mut buffer), wanted);
        check(buffer == after, "the text, or no byte, and what is past it stays");
    }
    wanted.0
}
