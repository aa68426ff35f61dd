//! The recorded cases: those by name, and of many more each that shows something no earlier one did.

use crate::answer::{Answer, Prepared, Row, Step};
use crate::case::{packable, Case, End};
use crate::dice::Dice;
use crate::judge::{self, Care, Verdict};
use crate::product::Family;
use crate::site::Site;
use crate::{doubles, named, random, singles, text};
use std::collections::BTreeSet;
use std::fs;

/// Writes the recorded cases to a file.
pub fn write(site: &Site, file: &str) -> bool {
    let text = recorded(site);
    match fs::write(file, &text) {
        Ok(()) => println!("{file}: {} cases, {} bytes", text.matches("\nend\n").count(), text.len()),
        Err(err) => println!("{file} cannot be written: {err}"),
    }
    fs::read_to_string(file).is_ok_and(|written| written == text)
}

/// Says whether the file would be written otherwise now.
pub fn check(site: &Site, file: &str) -> bool {
    let text = recorded(site);
    let same = fs::read_to_string(file).is_ok_and(|found| found == text);
    println!(
        "{file}: {}",
        if same { "it would be written the same" } else { "it would be written otherwise, or cannot be read" }
    );
    same
}

struct Recorder<'a> {
    site: &'a Site,
    seen: BTreeSet<String>,
    blocks: Vec<String>,
}

fn recorded(site: &Site) -> String {
    let mut recorder = Recorder { site, seen: BTreeSet::new(), blocks: Vec::new() };
    for named in named::all() {
        recorder.take(&named.about, &named.case, true);
    }
    recorder.take_some(singles::each, 197);
    recorder.take_some(doubles::each, 499);
    recorder.take_random();
    format!("cases {}\n{}", recorder.blocks.len(), recorder.blocks.concat())
}

impl Recorder<'_> {
    /// Takes a case if it shows something new, or anyway. A case that calls cannot set up is left out, and so is one on which the
    /// two sides differ, as they may.
    fn take(&mut self, about: &str, case: &Case, anyway: bool) -> Option<Answer> {
        if case.store.setting == 0 && !case.store.state.lines.is_empty() {
            return None;
        }
        let (rust, verdict) = judge::judge(self.site, case, Care::Stops);
        match verdict {
            Verdict::Same => {}
            Verdict::Known(_) => return None,
            Verdict::Differs(difference) => panic!("the two sides differ, so nothing is recorded: {difference}"),
        }
        if self.seen.insert(features(case, &rust)) || anyway {
            self.blocks.push(text::block(self.blocks.len(), about, case, &rust));
            return Some(rust);
        }
        None
    }

    /// Takes cases, looking at one of each `stride`.
    fn take_some(&mut self, each: Family, stride: usize) {
        let mut place = 0;
        each(&mut |case| {
            if place % stride == 0 {
                self.take("", case, false);
            }
            place += 1;
        });
    }

    /// Takes random cases, and stops of them: small ones, and a few large ones.
    fn take_random(&mut self) {
        for seed in 0..1_600 {
            let case = random::case(&mut Dice::new(seed));
            if case.store.names.len() > 6 && seed % 24 != 0 {
                continue;
            }
            let Some(prepared) = self.take("", &case, false).and_then(|rust| rust.prepared) else { continue };
            self.take_stops(&case, &prepared);
        }
    }

    fn take_stops(&mut self, case: &Case, prepared: &Prepared) {
        let End::Commit { committer, .. } = case.end else { return };
        for allowance in 0..prepared.steps.len() as u64 {
            self.take("", &Case { end: End::Commit { committer, allowance }, ..case.clone() }, false);
        }
    }
}

/// What a case shows, in words. Two cases with the same words show the same.
fn features(case: &Case, rust: &Answer) -> String {
    let Some(prepared) = &rust.prepared else {
        let edits = case
            .edits
            .iter()
            .map(|edit| (edit.change == crate::case::Change::Delete, edit.deref, edit.log_only, edit.expected.parts().0));
        return format!("{} {:?} {} {:?}", case.mode, rust.reply.number, rust.reply.places[3], edits.collect::<BTreeSet<_>>());
    };
    if prepared.end.number != 0 {
        let steps: Vec<&str> = prepared.steps.iter().rev().take(3).map(step_word).collect();
        return format!("{} {} {} {steps:?}", case.mode, case.store.setting, prepared.end.number);
    }
    let rows: BTreeSet<String> = prepared.rows.iter().map(|row| row_words(case, prepared, row)).collect();
    let steps: Vec<&str> = prepared.steps.iter().map(step_word).collect();
    format!("{} {} {rows:?} {steps:?} {}", case.mode, case.store.setting, prepared.ours_packed)
}

fn step_word(step: &Step) -> &'static str {
    match step {
        Step::Line(_) => "line",
        Step::Loose(..) => "loose",
        Step::RemoveLog(_) => "remove log",
        Step::Packed(_) => "packed",
        Step::RemoveLoose(_) => "remove loose",
    }
}

fn row_words(case: &Case, prepared: &Prepared, row: &Row) -> String {
    let [name, kind, log_only, force, _, expected, expected_kind, expected_number, new_kind, new_number, parent, _, leaf] =
        *row;
    let same = (expected_kind, expected_number) == (new_kind, new_number);
    let (packable, ours) = (packable(&case.store.names[name as usize]), prepared.ours[name as usize]);
    format!("{kind}{log_only}{force}{expected}{expected_kind}{new_kind}{same}{parent}{}{packable}{ours}", leaf != 0)
}
