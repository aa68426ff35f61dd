//! Each comparison is counted. One that fails says where it stands.

use std::fmt::Debug;
use std::panic::Location;
use std::sync::atomic::{AtomicU64, Ordering::Relaxed};

static PASSED: AtomicU64 = AtomicU64::new(0);
static FAILED: AtomicU64 = AtomicU64::new(0);
const MOST_SAID: u64 = 20;

#[track_caller]
pub fn check(holds: bool, what: &str) {
    if holds {
        PASSED.fetch_add(1, Relaxed);
    } else if FAILED.fetch_add(1, Relaxed) < MOST_SAID {
        println!("FAILED: {}: {what}", Location::caller());
    }
}

#[track_caller]
pub fn same<T: PartialEq + Debug>(found: T, wanted: T) {
    let holds = found == wanted;
    let what = if holds { String::new() } else { format!("found {found:?}, wanted {wanted:?}") };
    check(holds, &what);
}

/// The value, or the end of the program: what follows would mean nothing.
#[track_caller]
pub fn done<T, E: Debug>(result: Result<T, E>) -> T {
    check(result.is_ok(), "done");
    match result {
        Ok(value) => value,
        Err(refusal) => panic!("{}: refused: {refusal:?}", Location::caller()),
    }
}

#[track_caller]
pub fn refused<T: Debug>(result: Result<T, dehlbazin::Refusal>, refusal: dehlbazin::Refusal) {
    match result {
        Ok(value) => check(false, &format!("done: {value:?}, and not {refusal:?}")),
        Err(found) => same(found, refusal),
    }
}

pub fn counts() -> (u64, u64) {
    (PASSED.load(Relaxed), FAILED.load(Relaxed))
}
