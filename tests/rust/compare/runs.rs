//! The runs: which cases are tried, and how many.

use crate::answer::Answer;
use crate::backups;
use crate::case::Case;
use crate::crossed;
use crate::dice::Dice;
use crate::differences;
use crate::doubles;
use crate::fragments;
use crate::git::{self, Git};
use crate::judge::Care;
use crate::named::{self, Named};
use crate::places;
use crate::product::NESTED;
use crate::random;
use crate::record;
use crate::replay;
use crate::shown;
use crate::singles;
use crate::site::Site;
use crate::tally::Tally;
use crate::text;
use std::time::Instant;

/// Where the recorded cases stand, seen from the project's directory.
const RECORDED: &str = "crates/replay/stdin";

/// All of the exhaustive cases, and so many random ones.
pub fn all(site: &Site, count: u64, seed: u64) -> bool {
    some(site, 1, count, count / 20, seed)
}

/// A share of everything, or that part of it.
pub fn share(site: &Site, part: u64) -> bool {
    some(site, 13 * part, 15_000 / part, 1_000 / part, 1)
}

/// One of each `stride` exhaustive cases, and so many random ones without and with git. It ends with 'N passed, M failed'.
fn some(site: &Site, stride: u64, count: u64, with_git: u64, seed: u64) -> bool {
    let mut tallies = vec![differences(site), named(site)];
    tallies.extend(places(site));
    tallies.extend(crossed(site, stride));
    tallies.extend(singles(site, stride));
    tallies.push(doubles(site, stride));
    tallies.extend(nested(site, stride));
    tallies.push(random(site, count, seed));
    tallies.extend(git(site, with_git, seed));
    tallies.push(recorded(site));
    tallies.push(in_fragments());
    tallies.push(as_texts());
    let passed: u64 = tallies.iter().map(Tally::passed).sum();
    let failed: u64 = tallies.iter().map(Tally::failed).sum();
    println!("{passed} passed, {failed} failed");
    fine(&tallies)
}

/// Whether all of them are fine.
pub fn fine(tallies: &[Tally]) -> bool {
    tallies.iter().all(Tally::fine)
}

/// The recorded cases are those that would be recorded now, and the archive answers them as the Rust did.
fn recorded(site: &Site) -> Tally {
    let mut tally = replay::replay(RECORDED);
    tally.check(record::check(site, RECORDED), "the recorded cases would change");
    tally
}

/// Every list of a case above arrived in fragments too. Of these there were some, of no bytes among them.
fn in_fragments() -> Tally {
    let (mut tally, [lists, fragments, empty]) = (Tally::default(), fragments::counts());
    println!("in fragments too: {lists} lists in {fragments} fragments, {empty} of which have no bytes");
    tally.check(lists > 0 && fragments > lists && empty > 0, "the lists were not cut, or nowhere twice");
    tally
}

/// Of the cases that are read by calls the packed tables were written and read as text. Some had values, and some were brought back.
fn as_texts() -> Tally {
    let (mut tally, [written, read, changed]) = (Tally::default(), backups::counts());
    println!("as text too: {written} tables with values written, {read} texts read, {changed} of which changed the table");
    tally.check(written > 0 && read > 0 && changed > 0, "no table had values, or none was brought back");
    tally
}

/// As little as shows that a change to the Rust is noticed. It ends with the first part that notices it.
pub fn quick(site: &Site) -> bool {
    let flat = || fine(&singles(site, 211)) && doubles(site, 211).fine();
    let first = || named(site).fine() && fine(&places(site));
    first() && flat() && fine(&nested(site, 499)) && random(site, 1_000, 1).fine()
}

/// One of each `stride` cases with one edit, of the product of all lists: a tally for each pair of names.
pub fn crossed(site: &Site, stride: u64) -> Vec<Tally> {
    crossed::NAMES.map(|names| crossed_with(site, stride, names)).into()
}

fn crossed_with(site: &Site, stride: u64, [edited, other]: [&str; 2]) -> Tally {
    let what = format!("one edit of {edited} beside {other}, crossed");
    exhaustive(site, &what, stride, |hand_out| crossed::with([edited, other], hand_out))
}

/// One of each `stride` cases with one edit, of the families with more values: a tally for each pair of names.
pub fn singles(site: &Site, stride: u64) -> Vec<Tally> {
    singles::NAMES.map(|names| singles_with(site, stride, names)).into()
}

fn singles_with(site: &Site, stride: u64, [edited, other]: [&str; 2]) -> Tally {
    let what = format!("one edit of {edited} beside {other}, in families");
    exhaustive(site, &what, stride, |hand_out| singles::with([edited, other], hand_out))
}

/// One of each `stride` cases with two edits.
pub fn doubles(site: &Site, stride: u64) -> Tally {
    doubles_with(site, stride, doubles::NAMES)
}

fn doubles_with(site: &Site, stride: u64, names: [&str; 3]) -> Tally {
    let what = format!("two edits over {}", names.join(", "));
    exhaustive(site, &what, stride, |hand_out| doubles::with(names, hand_out))
}

/// One of each `stride` cases of the same kinds, with names of which one lies beneath the other.
pub fn nested(site: &Site, stride: u64) -> Vec<Tally> {
    let mut tallies = vec![doubles_with(site, stride, doubles::NESTED)];
    tallies.extend(NESTED.map(|names| crossed_with(site, stride, names)));
    tallies.extend(NESTED.map(|names| singles_with(site, stride, names)));
    tallies
}

fn exhaustive(site: &Site, what: &str, stride: u64, each: impl Fn(&mut dyn FnMut(&Case))) -> Tally {
    let (mut tally, began, mut place) = (Tally::default(), Instant::now(), 0);
    each(&mut |case| {
        if place % stride == 0 {
            tally.try_case(site, case, Care::Stops);
        }
        place += 1;
    });
    tally.report(what, began);
    tally
}

/// Random cases, and every stop of each. Where names nest, a second transaction follows in the same directory.
pub fn random(site: &Site, count: u64, seed: u64) -> Tally {
    let (mut tally, began) = (Tally::default(), Instant::now());
    for number in 0..count {
        let mut dice = Dice::new((seed << 32).wrapping_add(number));
        let case = random::case(&mut dice);
        let (rust, known) = tally.try_case_and_stops(site, &case);
        let goes_on = known.is_none() && differences::has_nested_names(&case) && case.store.locks_without_files().is_empty();
        if let Some(prepared) = rust.prepared.filter(|_| goes_on) {
            tally.try_next(site, &case, &random::next(&mut dice, &case, prepared.after));
        }
    }
    tally.report(&format!("random, seed {seed}"), began);
    tally
}

/// The cases by name, each with the number and the count that it says.
pub fn named(site: &Site) -> Tally {
    let (mut tally, began) = (Tally::default(), Instant::now());
    for named in named::all() {
        let (rust, known) = tally.try_case(site, &named.case, Care::Reads);
        check_named(&mut tally, &named, &rust, known);
    }
    for (first, second) in named::pairs() {
        let (rust, known) = tally.try_case(site, &first.case, Care::Reads);
        check_named(&mut tally, &first, &rust, known);
        let (rust, known) = tally.try_next(site, &first.case, &second.case);
        check_named(&mut tally, &second, &rust, known);
    }
    tally.report("by name", began);
    tally
}

/// The cases of where values are found: a tally for each mode, in which every place must be met.
pub fn places(site: &Site) -> Vec<Tally> {
    [1, 2, 3].map(|mode| places_in(site, mode)).into()
}

fn places_in(site: &Site, mode: u8) -> Tally {
    let (mut tally, began) = (Tally::default(), Instant::now());
    places::with(mode, &mut |case| {
        tally.try_case(site, case, Care::Reads);
    });
    tally.expect_places();
    tally.report(&format!("where values are found, mode {mode}"), began);
    tally
}

/// Whether a case by name shows what it says. Where it is of a known difference, the archive's numbers are looked at, not the Rust's.
fn check_named(tally: &mut Tally, named: &Named, rust: &Answer, known: Option<usize>) {
    let here = named.known.map(|_| replay::answer(&named.case));
    let answer = here.as_ref().unwrap_or(rust);
    let count = answer.prepared.as_ref().map_or(0, |prepared| prepared.end.places[0]);
    if (answer.reply.number, count, known) != (named.number, named.count, named.known) {
        let seen = format!("prepare answers {}, the count is {count}, the difference {known:?}", answer.reply.number);
        tally.fail(&format!("{}: {seen}, not {}, {} and {:?}", named.about, named.number, named.count, named.known));
    }
}

/// The known differences, each by its smallest input.
pub fn differences(site: &Site) -> Tally {
    let (mut tally, began) = (Tally::default(), Instant::now());
    for seen in shown::all(site) {
        println!("difference {}: {}", seen.number, seen.text);
        tally.check(seen.fine, &format!("difference {} is not as docs/DIFFERENCES.md says", seen.number));
    }
    tally.report("known differences", began);
    tally
}

/// Random cases that git answers too. None if there is no git.
pub fn git(site: &Site, count: u64, seed: u64) -> Option<Tally> {
    let Some(git) = Git::new(site) else {
        println!("git too: skipped, since there is no git that can be run");
        return None;
    };
    let (mut tally, began) = (Tally::default(), Instant::now());
    for number in 0..count {
        let case = git::case(&mut Dice::new((seed << 32).wrapping_add(number)));
        let (rust, _) = tally.try_case(site, &case, Care::Stops);
        let found = git.run(site, &case).expect("git can be run");
        if let Some(difference) = git::difference(&found, &rust, &case.store.state) {
            tally.fail(&format!("{difference}\n{}", text::block(0, "", &case, &rust)));
        }
    }
    tally.report(&format!("git too, seed {seed}"), began);
    Some(tally)
}
