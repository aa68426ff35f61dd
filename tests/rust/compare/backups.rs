//! The packed table as text. gix-ref's own reader and writer of packed-refs are not among the six files; a stand-in keeps that file as git
//! has it. What is compared is that the archive writes the lines of the file that the Rust leaves, and reads that file, header and all; and
//! that a file from before the transaction, read after it, brings back the table of then and nothing else.

use crate::answer::Prepared;
use crate::archive;
use crate::case::{Case, State, Store};
use crate::image;
use crate::site;
use std::sync::atomic::{AtomicU64, Ordering::Relaxed};

type Outcome = Result<(), String>;

/// What a buffer has before a table is written, and past it.
const OLD: u8 = 0xa5;

static WRITTEN: AtomicU64 = AtomicU64::new(0);
static READ: AtomicU64 = AtomicU64::new(0);
static CHANGED: AtomicU64 = AtomicU64::new(0);

/// How many tables with values were written so far, how many texts were read, and how many of these changed the table.
pub fn counts() -> [u64; 3] {
    [&WRITTEN, &READ, &CHANGED].map(|count| count.load(Relaxed))
}

/// While the transaction is prepared the table is that of before. It is written, and no text is read.
pub fn while_prepared(case: &Case, region: &[u8]) -> Outcome {
    let (store, before) = (&case.store, &case.store.state);
    write(store, before, region)?;
    let mut after = region.to_vec();
    archive::read_packed(&mut after, &site::packed_text(store, &before.packed)).must_be(15, &[])?;
    match after == region {
        true => Ok(()),
        false => Err("a text that is refused with 15 changes the region".to_owned()),
    }
}

/// What the transaction left is written; read, it changes nothing, and the file from before brings back the table of then.
pub fn afterwards(case: &Case, prepared: &Prepared, region: &[u8]) -> Outcome {
    let (store, before, after) = (&case.store, &case.store.state, &prepared.after);
    write(store, after, region)?;
    read(store, after, after, region)?;
    read(store, before, after, region)
}

/// The region of this state is written: in a buffer with room for three bytes more, which stay, and not in one that lacks a byte.
fn write(store: &Store, state: &State, region: &[u8]) -> Outcome {
    let file = site::packed_text(store, &state.packed);
    let text = file.split_once('\n').map_or("", |(_header, lines)| lines).as_bytes();
    let mut buffer = vec![OLD; text.len() + 3];
    archive::write_packed(region, &mut buffer).must_be(0, &[text.len() as u64])?;
    if buffer != [text, &[OLD; 3]].concat() {
        return Err(format!("{:?} is written, not {:?}", String::from_utf8_lossy(&buffer), String::from_utf8_lossy(text)));
    }
    if text.is_empty() {
        return Ok(());
    }
    WRITTEN.fetch_add(1, Relaxed);
    let mut buffer = vec![OLD; text.len() - 1];
    archive::write_packed(region, &mut buffer).must_be(32, &[])?;
    match buffer.iter().all(|byte| *byte == OLD) {
        true => Ok(()),
        false => Err("a text that does not fit changes the buffer".to_owned()),
    }
}

/// The file of a table is read into the region of a state.
fn read(store: &Store, table: &State, state: &State, region: &[u8]) -> Outcome {
    READ.fetch_add(1, Relaxed);
    CHANGED.fetch_add((table.packed != state.packed).into(), Relaxed);
    let mut region = region.to_vec();
    let refs = table.packed.iter().flatten().count() as u64;
    archive::read_packed(&mut region, &site::packed_text(store, &table.packed)).must_be(0, &[refs])?;
    let expected = State { packed: table.packed.clone(), ..state.clone() };
    image::difference(&image::encode(store, &expected, None), &region).map_or(Ok(()), Err)
}
