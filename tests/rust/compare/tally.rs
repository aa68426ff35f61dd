//! What a run saw: how many cases, with which answers, and what differed.

use crate::answer::Answer;
use crate::case::Case;
use crate::differences;
use crate::judge::{self, Care, Verdict};
use crate::original;
use crate::shrink;
use crate::site::Site;
use crate::text;
use std::collections::BTreeMap;

/// So many differences are shown in full.
const SHOWN: u64 = 5;

#[derive(Default)]
pub struct Tally {
    cases: u64,
    stops: u64,
    locked: u64,
    next: u64,
    differ: u64,
    known: BTreeMap<usize, u64>,
    prepares: BTreeMap<u32, u64>,
    ends: BTreeMap<u32, u64>,
    most_rows: usize,
    most_writes: usize,
    /// How often each of the five places of a value was compared: with names after the end, and with rows.
    places: [[u64; 5]; 2],
    /// With how many of these rows a packed value was not seen, since the packed table was not opened.
    unseen: u64,
}

impl Tally {
    /// Compares the two sides on a case, counts it, and says so if they differ. Beside the Rust's answer it gives the number of a known
    /// difference that was met.
    pub fn try_case(&mut self, site: &Site, case: &Case, care: Care) -> (Answer, Option<usize>) {
        let (rust, verdict) = judge::judge(site, case, care);
        self.cases += 1;
        self.note(&rust);
        if care == Care::Reads && matches!(verdict, Verdict::Same) {
            self.note_places(case, &rust);
        }
        (rust, self.count(site, case, verdict))
    }

    /// The same, then once more with locks that others place in between, and once for every stop of the commit.
    pub fn try_case_and_stops(&mut self, site: &Site, case: &Case) -> (Answer, Option<usize>) {
        let (rust, known) = self.try_case(site, case, Care::Reads);
        // There is nothing to stop where 9 or 10 is met: here prepare refuses.
        let Some(prepared) = rust.prepared.as_ref().filter(|_| !matches!(known, Some(9 | 10))) else { return (rust, known) };
        // A split that is not the scope's (2) may hide a row of 1.
        let meets_1 = differences::meets_1(case, prepared) || case.mode == 3 && differences::meets_2(case);
        if !differences::has_nested_names(case) && !meets_1 {
            self.locked += 1;
            let verdict = judge::judge_locked(site, case);
            self.count(site, case, verdict);
        }
        for (stopped, verdict) in judge::judge_stops(site, case, prepared.steps.len() as u64) {
            self.stops += 1;
            self.count(site, &stopped, verdict);
        }
        (rust, known)
    }

    /// Compares the two sides on a case whose store another case leaves. The Rust's two transactions run in one directory, which is not
    /// laid out in between; only a packed table that was emptied goes (difference 6).
    pub fn try_next(&mut self, site: &Site, first: &Case, next: &Case) -> (Answer, Option<usize>) {
        original::answer(site, first);
        site.drop_empty_table(&next.store);
        let (rust, verdict) = judge::judge_next(site, next);
        self.next += 1;
        self.note(&rust);
        (rust, self.count(site, next, verdict))
    }

    fn note(&mut self, rust: &Answer) {
        *self.prepares.entry(rust.reply.number).or_default() += 1;
        if let Some(prepared) = &rust.prepared {
            *self.ends.entry(prepared.end.number).or_default() += 1;
            self.most_rows = self.most_rows.max(prepared.rows.len());
            self.most_writes = self.most_writes.max(prepared.steps.len());
        }
    }

    fn note_places(&mut self, case: &Case, rust: &Answer) {
        let Some(prepared) = &rust.prepared else { return };
        let [of_names, of_rows] = &mut self.places;
        for name in 0..case.store.names.len() {
            of_names[prepared.after.find(name, true).1 as usize - 1] += 1;
        }
        for row in &prepared.rows {
            let find = |sees_packed| case.store.state.find(row[0] as usize, sees_packed).1;
            let found = find(prepared.ours_packed);
            of_rows[found as usize - 1] += 1;
            self.unseen += u64::from(found != find(true));
        }
    }

    /// Says so if one of the five places was never compared, with names and with rows, or no row that does not see a packed value.
    pub fn expect_places(&mut self) {
        if self.places.iter().flatten().any(|count| *count == 0) || self.unseen == 0 {
            self.fail(&format!("of the places some were not met: {:?}, {} unseen", self.places, self.unseen));
        }
    }

    fn count(&mut self, site: &Site, case: &Case, verdict: Verdict) -> Option<usize> {
        match verdict {
            Verdict::Same => None,
            Verdict::Known(number) => {
                *self.known.entry(number).or_default() += 1;
                Some(number)
            }
            Verdict::Differs(difference) => {
                self.differ += 1;
                if self.differ <= SHOWN {
                    println!("DIFFERENT: {difference}\n{case:?}\nthe smallest case like it:");
                    let (small, rust, difference) = shrink::smallest(site, case);
                    println!("{}{difference}", text::block(0, "", &small, &rust));
                }
                None
            }
        }
    }

    /// Counts a check that is made beside the cases.
    pub fn check(&mut self, fine: bool, text: &str) {
        self.cases += 1;
        if !fine {
            self.fail(text);
        }
    }

    /// Counts something that is not as it should be, and says so.
    pub fn fail(&mut self, text: &str) {
        self.differ += 1;
        println!("FAILED: {text}");
    }

    /// How many runs were as they should be.
    pub fn passed(&self) -> u64 {
        self.cases + self.stops + self.locked + self.next - self.differ
    }

    pub fn failed(&self) -> u64 {
        self.differ
    }

    /// Nothing differed that should not, and something was tried.
    pub fn fine(&self) -> bool {
        self.differ == 0 && self.cases > 0
    }

    pub fn report(&self, what: &str, began: std::time::Instant) {
        let seconds = began.elapsed().as_secs();
        let Tally { cases, stops, locked, next, differ, .. } = self;
        let more = format!("{stops} stops run, {locked} runs with locks in between, {next} second transactions");
        println!("{what}: {cases} cases, {more}, {differ} differ, {seconds} s");
        if !self.prepares.is_empty() {
            println!("  known differences {:?}; prepare's numbers {:?}", self.known, self.prepares);
            println!("  the end's numbers {:?}; at most {} rows and {} writes", self.ends, self.most_rows, self.most_writes);
        }
        let [of_names, of_rows] = &self.places;
        if of_names.iter().any(|count| *count > 0) {
            let unseen = self.unseen;
            println!("  places 1 to 5 of names {of_names:?}, of rows {of_rows:?}; {unseen} rows do not see a packed value");
        }
    }
}
