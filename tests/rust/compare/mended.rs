//! What the Rust would answer without difference 1: in mode 3, an object update of a name that cannot be packed is treated as in
//! mode 2. Its lock is kept only if something changes, its value is written loose then, and its loose value stays. With that
//! put right, such a case is compared in full like any other.

use crate::answer::{Answer, Prepared, Row, Step};
use crate::case::{Case, End, Target};
use crate::differences::{direct_and_unpackable, meets_1, unchanged};

/// The answer put right. None if no row is of that kind, or if commit was stopped: then it cannot be told from the Rust's writes
/// how far it would have come.
pub fn mended(case: &Case, rust: &Answer) -> Option<Answer> {
    let prepared = rust.prepared.as_ref()?;
    if prepared.end.number != 0 || !meets_1(case, prepared) {
        return None;
    }
    let mut mended = prepared.clone();
    for row in prepared.rows.iter().filter(|row| direct_and_unpackable(case, row) && unchanged(row)) {
        mended.ours[row[0] as usize] = false;
    }
    if let End::Commit { allowance, .. } = case.end {
        mended.steps = steps(case, prepared);
        if mended.steps.len() as u64 > allowance {
            return None;
        }
        mended.end.places[0] = mended.steps.len() as u64;
        mended.after = case.store.state.clone();
        mended.steps.iter().for_each(|step| step.apply(&mut mended.after));
    }
    Some(Answer { prepared: Some(mended), ..rust.clone() })
}

/// The writes put right. Those of updates come first, by row, a line before a value.
fn steps(case: &Case, prepared: &Prepared) -> Vec<Step> {
    let mut rest = prepared.steps.iter().peekable();
    let mut steps = Vec::new();
    for row in prepared.rows.iter().filter(|row| row[1] == 1) {
        let name = row[0] as usize;
        let of_row = |step: &&Step| matches!(step, Step::Line(line) if line.name == name) || is_value(step, name);
        while let Some(step) = rest.next_if(of_row) {
            steps.push(step.clone());
        }
        if lost(case, row) && !unchanged(row) {
            steps.push(Step::Loose(name, Target::Object(row[9])));
        }
    }
    let is_lost = |name: usize| prepared.rows.iter().any(|row| row[0] as usize == name && lost(case, row));
    steps.extend(rest.filter(|step| !matches!(step, Step::RemoveLoose(name) if is_lost(*name))).cloned());
    steps
}

fn is_value(step: &Step, name: usize) -> bool {
    matches!(step, Step::Loose(written, _) if *written == name)
}

/// Whether the Rust loses the value of a row.
fn lost(case: &Case, row: &Row) -> bool {
    row[2] == 0 && direct_and_unpackable(case, row)
}
