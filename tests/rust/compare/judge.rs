//! The comparison of one case: both sides answer it, and every number, extra, row, lock, value and line must be the same.

use crate::answer::{Answer, Prepared, Reply, Row, NO_LAYOUT};
use crate::archive::{self, Lockable};
use crate::backups;
use crate::case::{Case, End, State, Target};
use crate::conflicts;
use crate::differences::{self, Stage};
use crate::fragments;
use crate::image::{self, Transaction};
use crate::mended;
use crate::original::{self, Odd};
use crate::site::Site;

pub enum Verdict {
    Same,
    Known(usize),
    Differs(String),
}

type Outcome = Result<(), (Stage, String)>;

/// How much is compared beside the answers themselves.
#[derive(Clone, Copy, PartialEq, Eq)]
pub enum Care {
    /// Every stop too, where the Rust's side is its own list of writes.
    Stops,
    /// Besides, the store is also made by calls, everything is read by calls, and the packed table is written and read as text.
    Reads,
}

/// Compares the two sides on a case.
pub fn judge(site: &Site, case: &Case, care: Care) -> (Answer, Verdict) {
    judge_oddly(site, case, Odd::default(), |rust| compare(case, rust, care))
}

/// Runs the Rust once for each stop, and compares what it really leaves.
pub fn judge_stops(site: &Site, case: &Case, writes: u64) -> Vec<(Case, Verdict)> {
    let End::Commit { committer, .. } = case.end else { return Vec::new() };
    let stopped = (0..=writes).map(|allowance| Case { end: End::Commit { committer, allowance }, ..case.clone() });
    let judged = stopped.map(|case| {
        let (_, verdict) = judge_oddly(site, &case, Odd::default(), |rust| compare_once(&case, rust).map(drop));
        (case, verdict)
    });
    judged.collect()
}

/// Compares the two sides on a case whose store a transaction before has left in the directory.
pub fn judge_next(site: &Site, case: &Case) -> (Answer, Verdict) {
    judge_oddly(site, case, Odd { laid_out: true, ..Odd::default() }, |rust| compare(case, rust, Care::Reads))
}

/// Lets others lock all that is free between prepare and the end, on both sides: that changes nothing but those locks.
pub fn judge_locked(site: &Site, case: &Case) -> Verdict {
    judge_oddly(site, case, Odd { locked_between: true, ..Odd::default() }, |rust| compare_locked(case, rust)).1
}

/// Runs the Rust, and compares. Where names nest, 9 and 10 say whether the archive refuses what the Rust prepares. Where the sides
/// differ otherwise, and 2 or 11 to 13 is met, the Rust is run once more in a way that does not meet it, and with that answer nothing
/// may differ.
fn judge_oddly(site: &Site, case: &Case, odd: Odd, compare: impl Fn(&Answer) -> Outcome) -> (Answer, Verdict) {
    let rust = original::answer_oddly(site, case, odd);
    let found = verdict(case, &rust, &compare);
    let nested = differences::has_nested_names(case);
    if !nested && !matches!(found, Verdict::Differs(_)) {
        return (rust, found);
    }
    let (failed, partial) = (differences::of_files(case, &rust), differences::meets_2(case));
    let exact = Odd { exact_names: true, laid_out: false, ..odd };
    // What prepare refuses is known already, but of a store that was not laid out, and of rows that are not the scope's.
    let unknown = nested && (partial || rust.reply.number == NO_LAYOUT);
    let alone = unknown.then(|| original::answer_oddly(site, &differences::prepare_alone(case), exact));
    if let Some((refusal, number)) = conflicts::refusal(case, alone.as_ref().unwrap_or(&rust)) {
        return (rust, known(number, verdict(case, &refusal, &compare)));
    }
    let (Verdict::Differs(_), Some(number)) = (&found, failed.or(partial.then_some(2))) else { return (rust, found) };
    let refused = alone.filter(|alone| alone.prepared.is_none());
    let other = refused.unwrap_or_else(|| original::answer_oddly(site, &differences::renamed(case), exact));
    (rust, known(number, verdict(case, &other, &compare)))
}

/// What is as the list says is known by that number.
fn known(number: usize, verdict: Verdict) -> Verdict {
    match verdict {
        Verdict::Same | Verdict::Known(_) => Verdict::Known(number),
        differs => differs,
    }
}

fn compare_locked(case: &Case, rust: &Answer) -> Outcome {
    let mut region = image::encode(&case.store, &case.store.state, None);
    same_reply(Stage::Prepare, &rust.reply, archive::prepare(&mut region, &case.edits, case.mode))?;
    let Some(prepared) = &rust.prepared else { return Ok(()) };
    for name in 0..case.store.names.len() {
        let free = !prepared.ours[name] && !case.store.state.locks[name];
        let reply = Reply::new(if free { 0 } else { 20 }, &[]);
        same_reply(Stage::Locks, &reply, archive::place_lock(&mut region, Lockable::Name(name)))?;
    }
    let free = !prepared.ours_packed && !case.store.state.packed_lock;
    let reply = Reply::new(if free { 0 } else { 20 }, &[]);
    same_reply(Stage::Locks, &reply, archive::place_lock(&mut region, Lockable::PackedTable))?;
    same_reply(Stage::End, &prepared.end, archive::end(&mut region, case))?;
    same_region(Stage::End, &image::encode(&case.store, &prepared.after, None), &region)
}

/// What a comparison with the Rust's answer says, or with that answer put right where difference 1 is met.
fn verdict(case: &Case, rust: &Answer, compare: impl Fn(&Answer) -> Outcome) -> Verdict {
    let Err(found) = compare(rust) else { return Verdict::Same };
    let mended = mended::mended(case, rust);
    let (stage, text) = match mended.as_ref().map(compare) {
        Some(Ok(())) => return Verdict::Known(1),
        Some(Err(left)) => left,
        None => found,
    };
    match differences::is_stop_of_1(case, rust, stage) {
        true => Verdict::Known(1),
        false => Verdict::Differs(text),
    }
}

fn compare(case: &Case, rust: &Answer, care: Care) -> Outcome {
    if care == Care::Reads {
        if let Some(region) = archive::by_calls(&case.store) {
            same_region(Stage::Prepare, &image::encode(&case.store, &case.store.state, None), &region)?;
        }
    }
    let (prepared_region, after) = compare_once(case, rust)?;
    let Some(prepared) = &rust.prepared else { return Ok(()) };
    compare_stops(case, prepared, &prepared_region)?;
    if care == Care::Reads {
        compare_rows(case, prepared, &prepared_region)?;
        compare_reads(case, prepared, &after)?;
        as_text(Stage::Prepare, backups::while_prepared(case, &prepared_region))?;
        as_text(Stage::End, backups::afterwards(case, prepared, &after))?;
    }
    Ok(())
}

/// Compares the two calls, and prepare with a list that arrives in fragments. It hands back the region between the two and the one
/// after both.
fn compare_once(case: &Case, rust: &Answer) -> Result<(Vec<u8>, Vec<u8>), (Stage, String)> {
    let store = &case.store;
    let before = image::encode(store, &store.state, None);
    let mut region = before.clone();
    let prepare = archive::prepare(&mut region, &case.edits, case.mode);
    if let Some(text) = fragments::difference(case, &before, &prepare, &region) {
        return Err((Stage::Prepare, text));
    }
    same_reply(Stage::Prepare, &rust.reply, prepare)?;
    let Some(prepared) = &rust.prepared else {
        same_region(Stage::Prepare, &before, &region)?;
        return Ok((region.clone(), region));
    };
    let Prepared { rows, ours, ours_packed, .. } = prepared;
    let transaction = Transaction { mode: case.mode, rows, ours, ours_packed: *ours_packed };
    let expected = image::encode(store, &store.state, Some(&transaction));
    if let Some(text) = image::difference_of_rows(&expected, &region) {
        return Err((Stage::Prepare, text));
    }
    same_region(Stage::Locks, &expected, &region)?;
    let between = region.clone();
    same_reply(Stage::End, &prepared.end, archive::end(&mut region, case))?;
    same_region(Stage::End, &image::encode(store, &prepared.after, None), &region)?;
    Ok((between, region))
}

/// Every stop: after so many writes of the Rust's list, that state and no other.
fn compare_stops(case: &Case, prepared: &Prepared, region: &[u8]) -> Outcome {
    let End::Commit { committer, .. } = case.end else { return Ok(()) };
    let mut state = case.store.state.clone();
    for (made, step) in prepared.steps.iter().enumerate() {
        let mut region = region.to_vec();
        let reply = Reply::new(17, &[made as u64]);
        same_reply(Stage::End, &reply, archive::commit(&mut region, committer, made as u64))?;
        same_region(Stage::End, &image::encode(&case.store, &state, None), &region)?;
        step.apply(&mut state);
    }
    Ok(())
}

/// The rows, read by calls. gix-ref has no number for where a row's value was found. What is compared is that place 13 fits what the
/// Rust's files held before, and whether its prepare opened the packed table: then it holds the table's lock. The value found so must be
/// the one that the Rust's row took for its expected value. Reading the row's name sees packed values all the same.
fn compare_rows(case: &Case, prepared: &Prepared, region: &[u8]) -> Outcome {
    let before = &case.store.state;
    for (place, row) in prepared.rows.iter().enumerate() {
        let name = row[0] as usize;
        let (value, found) = before.find(name, prepared.ours_packed);
        if value.map(|target| Target::numbers(Some(target))) != taken(row) {
            return Err((Stage::Prepare, format!("row {place} of the Rust did not take {value:?}, which is at place {found}")));
        }
        let read = archive::read_row(region, place);
        let rest = [found, 0, 0];
        if read.number != 0 || read.places[..13] != row[..] || read.places[13..] != rest {
            return Err((Stage::Prepare, format!("row {place} reads {read:?}, and its value was found at place {found}")));
        }
        compare_name(Stage::Prepare, before, name, region)?;
    }
    same_reply(Stage::Prepare, &Reply::new(22, &[]), archive::read_row(region, prepared.rows.len()))
}

/// What a row found, which took the place of its expected value: kind and number.
fn taken(row: &Row) -> Option<[u64; 2]> {
    (row[5] == 3).then_some([row[6], row[7]])
}

/// A name, read by a call. gix-ref has no number for the place of a value: what is compared is that it fits what the files hold.
fn compare_name(stage: Stage, state: &State, name: usize, region: &[u8]) -> Outcome {
    let (value, found) = state.find(name, true);
    let [kind, number] = Target::numbers(value);
    same_reply(stage, &Reply::new(0, &[kind, number, found]), archive::read_name(region, name))
}

/// The names and their lines, read by calls after the end: they are as in the files that the Rust left.
fn compare_reads(case: &Case, prepared: &Prepared, region: &[u8]) -> Outcome {
    for name in 0..case.store.names.len() {
        compare_name(Stage::End, &prepared.after, name, region)?;
        let lines = prepared.after.lines.iter().filter(|line| line.name == name);
        let mut count = 0;
        for (place, line) in lines.enumerate() {
            let reply = Reply::new(0, &[line.previous, line.new, line.committer.into(), line.message.into()]);
            same_reply(Stage::End, &reply, archive::read_line(region, name, place))?;
            count = place + 1;
        }
        same_reply(Stage::End, &Reply::new(22, &[]), archive::read_line(region, name, count))?;
    }
    Ok(())
}

fn as_text(stage: Stage, found: Result<(), String>) -> Outcome {
    found.map_err(|text| (stage, format!("{stage:?}, the packed table as text: {text}")))
}

fn same_reply(stage: Stage, rust: &Reply, archive: archive::Reported) -> Outcome {
    if archive.is(rust) {
        return Ok(());
    }
    let (number, places) = (archive.number, archive.places);
    Err((stage, format!("{stage:?}: the Rust answers {} {:?}, the archive {number} {places:?}", rust.number, rust.places)))
}

fn same_region(stage: Stage, rust: &[u8], archive: &[u8]) -> Outcome {
    image::difference(rust, archive).map_or(Ok(()), |text| Err((stage, format!("{stage:?}: {text}"))))
}
