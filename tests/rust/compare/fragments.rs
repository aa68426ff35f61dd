//! The second way to prepare: the list arrives in fragments, and the receiver is closed on a copy of the region. gix-ref knows no
//! fragments. What is compared with it is prepare; and closing must answer what prepare answers, and leave the same region, so that it is
//! compared with gix-ref as well.

use crate::archive::{self, Reported};
use crate::case::Case;
use crate::dice::Dice;
use crate::image;
use std::sync::atomic::{AtomicU64, Ordering::Relaxed};

/// How many bytes a receiver holds, and its size.
const ROOM: usize = 868;
const SIZE: usize = 2 + ROOM;

static LISTS: AtomicU64 = AtomicU64::new(0);
static FRAGMENTS: AtomicU64 = AtomicU64::new(0);
static EMPTY: AtomicU64 = AtomicU64::new(0);

/// How many lists arrived so far, in how many fragments, and how many of these had no bytes.
pub fn counts() -> [u64; 3] {
    [&LISTS, &FRAGMENTS, &EMPTY].map(|count| count.load(Relaxed))
}

fn count(sizes: &[usize]) {
    LISTS.fetch_add(1, Relaxed);
    FRAGMENTS.fetch_add(sizes.len() as u64, Relaxed);
    EMPTY.fetch_add(sizes.iter().filter(|size| **size == 0).count() as u64, Relaxed);
}

/// Closes the list of a case on the region from before, and says in words what is not as after prepare.
pub fn difference(case: &Case, before: &[u8], prepare: &Reported, after: &[u8]) -> Option<String> {
    let list = image::encode_list(&case.edits);
    let fragments = cut(&list, case.mode);
    let sizes: Vec<usize> = fragments.iter().map(|fragment| fragment.len()).collect();
    count(&sizes);
    let mut region = before.to_vec();
    let text = match closed(&mut region, &fragments, case.mode) {
        Err(text) => text,
        Ok(close) if close != *prepare => format!("closing answers {}, prepare {}", close.said(), prepare.said()),
        Ok(_) if region != after => "closing leaves another region than prepare".to_owned(),
        Ok(_) => return None,
    };
    Some(format!("a list in fragments of {sizes:?} bytes: {text}"))
}

/// Cut at none to eight places. Some are an end of the list, or one is there twice, so that fragments of no bytes are among them. The
/// list and the mode are the seed: a case is cut the same way each time.
fn cut(list: &[u8], mode: u8) -> Vec<&[u8]> {
    let seed = list.iter().fold(mode.into(), |seed: u64, byte| seed.wrapping_mul(31).wrapping_add((*byte).into()));
    let mut dice = Dice::new(seed);
    let mut places = vec![list.len()];
    for _ in 0..dice.below(5) {
        let place = dice.below(list.len() + 1);
        places.extend(vec![place; 1 + usize::from(dice.percent(20))]);
    }
    places.sort_unstable();
    let mut from = 0;
    let piece = |to: usize| (&list[from..to], from = to).0;
    places.into_iter().map(piece).collect()
}

/// What closing answers, if the fragments are taken one by one, one too many is not, and the receiver is fresh afterwards.
fn closed(region: &mut [u8], fragments: &[&[u8]], mode: u8) -> Result<Reported, String> {
    let mut receiver = [0xa5; SIZE];
    archive::fresh_receiver(&mut receiver).must_be(0, &[])?;
    let mut held = 0;
    for fragment in fragments {
        held += fragment.len();
        archive::take_fragment(&mut receiver, fragment).must_be(0, &[held as u64])?;
    }
    archive::take_fragment(&mut receiver, &[0xa5; SIZE][..ROOM + 1 - held]).must_be(26, &[])?;
    let close = archive::close_receiver(region, &mut receiver, mode);
    match receiver == [0; SIZE] {
        true => Ok(close),
        false => Err(format!("closing answers {}, and the receiver is not fresh", close.number)),
    }
}
