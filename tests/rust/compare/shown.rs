//! Each known difference by its smallest input, run on both sides. A difference that cannot be seen any more fails.

use crate::answer::{Answer, Prepared, NOT_LOGGED, NOT_PLACED, NOT_REMOVED, NO_LAYOUT};
use crate::archive::{self, Lockable};
use crate::build::{delete, link, object, store, update};
use crate::case::{Case, Expected, Line, Target, ENOUGH};
use crate::image;
use crate::judge::{self, Care, Verdict};
use crate::original::{self, Odd};
use crate::site::Site;
use counted::ledger;
use gix_lock::acquire::Fail;
use gix_ref::file::{self, log::WriteReflog};
use std::panic::{self, AssertUnwindSafe};

/// What was seen: the number of the difference, in words, and whether it is as docs/DIFFERENCES.md says.
pub struct Seen {
    pub number: usize,
    pub text: String,
    pub fine: bool,
}

fn seen(number: usize, input: &str, rust: String, here: String, fine: bool) -> Seen {
    Seen { number, text: format!("{input}: the Rust {rust}; here {here}"), fine }
}

pub fn all(site: &Site) -> Vec<Seen> {
    [
        lost_in_mode_3(site),
        partial_name(site),
        panics(site),
        always(site),
        empty_table(site),
        no_counterpart(site),
        null_id(site),
        refused_here(site),
        done_here(site),
        bounds(site),
    ]
    .into_iter()
    .flatten()
    .collect()
}

/// The region after the archive prepared the case, and the number that it answered.
fn prepare(case: &Case) -> (Vec<u8>, archive::Reported) {
    let mut region = image::encode(&case.store, &case.store.state, None);
    let reported = archive::prepare(&mut region, &case.edits, case.mode);
    (region, reported)
}

/// The region after the archive prepared the case and ended it.
fn run(case: &Case) -> (Vec<u8>, archive::Reported) {
    let (mut region, _) = prepare(case);
    let reported = archive::end(&mut region, case);
    (region, reported)
}

fn prepared(answer: &Answer) -> &Prepared {
    answer.prepared.as_ref().expect("the Rust prepares this")
}

/// The judge meets the difference, and its predicate explains it.
fn explained(site: &Site, case: &Case, number: usize) -> bool {
    matches!(judge::judge(site, case, Care::Stops).1, Verdict::Known(found) if found == number)
}

fn value(numbers: [u64; 2]) -> String {
    match numbers {
        [0, _] => "nothing".to_owned(),
        [1, object] => format!("object {object}"),
        [_, name] => format!("a link to name {name}"),
    }
}

/// 1. An object update of an unpackable name in mode 3.
fn lost_in_mode_3(site: &Site) -> Vec<Seen> {
    let mut list = Vec::new();
    for (before, input) in [(5, "HEAD loose 5, updated to 7 in mode 3"), (7, "HEAD loose 7, updated to 7 in mode 3")] {
        let case = store(1, &["HEAD"]).loose(0, object(before)).mode(3).edit(update(0, object(7)));
        let rust = original::answer(site, &case);
        let left = Target::numbers(prepared(&rust).after.read(0));
        let here = archive::read_name(&run(&case).0, 0).places;
        let fine = explained(site, &case, 1) && left == [0, 0] && here[..2] == [1, 7];
        let (left, here) = (format!("leaves {}", value(left)), format!("{} is left", value([here[0], here[1]])));
        list.push(seen(1, input, left, here, fine));
    }
    let case = store(1, &["HEAD"]).loose(0, object(7)).mode(3).edit(update(0, object(7)).log_only());
    let kept = prepared(&original::answer(site, &case)).ours[0];
    let here = archive::place_lock(&mut prepare(&case).0, Lockable::Name(0)).number;
    let fine = explained(site, &case, 1) && kept && here == 0;
    let input = "HEAD loose 7, its log only updated to 7 in mode 3";
    list.push(seen(1, input, format!("keeps its lock: {kept}"), format!("placing a lock on HEAD then answers {here}"), fine));
    list
}

/// 2. Links looked up by a partial name.
fn partial_name(site: &Site) -> Vec<Seen> {
    let pairs = [
        ["HEAD", "refs/heads/HEAD"],
        ["HEAD", "refs/HEAD"],
        ["HEAD", "refs/tags/HEAD"],
        ["HEAD", "refs/remotes/HEAD"],
        ["HEAD", "refs/remotes/HEAD/HEAD"],
        ["ORIG_HEAD", "refs/heads/ORIG_HEAD"],
    ];
    let one = |[short, long]: [&str; 2]| {
        let case = store(1, &[short, long, "refs/heads/main"]).loose(1, link(2)).edit(update(0, object(7)).deref());
        let rust = prepared(&original::answer(site, &case)).rows.len();
        let here = prepare(&case).1.places[0];
        let fine = explained(site, &case, 2) && rust == 2 && here == 1;
        let input = format!("{short} absent, {long} a link, {short} updated with deref");
        seen(2, &input, format!("makes {rust} rows"), format!("{here} is made"), fine)
    };
    pairs.map(one).into_iter().collect()
}

/// The text that a part of the Rust panics with.
fn panic_text<T>(run: impl FnOnce() -> T) -> String {
    let panic = panic::catch_unwind(AssertUnwindSafe(run)).err();
    let text = panic.as_ref().and_then(|panic| {
        let formatted = panic.downcast_ref::<String>().cloned();
        formatted.or_else(|| panic.downcast_ref::<&str>().map(|text| text.to_string()))
    });
    text.unwrap_or_default()
}

/// 3 and 4. Where the Rust panics.
fn panics(site: &Site) -> Vec<Seen> {
    let case = store(1, &["HEAD"]).edit(delete(0).expect(Expected::MustNotExist));
    site.lay_out(&case.store).expect("the store can be laid out");
    ledger::open(ENOUGH);
    let rust = file::Store::at(site.git_dir(), WriteReflog::Normal);
    let edits = || vec![original::ref_edit(&case.store, &case.edits[0])];
    let fail = Fail::Immediately;
    let deleted = panic_text(|| rust.transaction().prepare(edits(), fail, fail));
    let twice =
        panic_text(|| rust.transaction().prepare(vec![], fail, fail).and_then(|prepared| prepared.prepare(vec![], fail, fail)));
    let unprepared = panic_text(|| rust.transaction().commit(None));

    let here = prepare(&case).1.number;
    let empty = store(1, &["HEAD"]);
    let here_twice = archive::prepare(&mut prepare(&empty).0, &[], 1).number;
    let here_unprepared = archive::commit(&mut image::encode(&empty.store, &empty.store.state, None), 1, 1).number;
    vec![
        seen(
            3,
            "a delete of HEAD that expects nothing there",
            format!("panics, '{deleted}'"),
            here.to_string(),
            here == 13 && deleted.starts_with("BUG"),
        ),
        seen(
            4,
            "prepare twice",
            format!("panics, '{twice}'"),
            here_twice.to_string(),
            here_twice == 15 && twice.starts_with("BUG"),
        ),
        seen(
            4,
            "commit unprepared",
            format!("panics, '{unprepared}'"),
            here_unprepared.to_string(),
            here_unprepared == 15 && unprepared.starts_with("BUG"),
        ),
    ]
}

/// 5. Log setting 2, read as the Rust's own comment has it.
fn always(site: &Site) -> Vec<Seen> {
    let case = store(2, &["FETCH_HEAD"]).edit(update(0, object(7)));
    let odd = Odd { log_for_all: true, ..Odd::default() };
    let rust = prepared(&original::answer_oddly(site, &case, odd)).after.lines.len();
    let here = archive::read_line(&run(&case).0, 0, 0).number;
    let input = "setting 2, FETCH_HEAD updated to 7";
    vec![seen(
        5,
        input,
        format!("writes {rust} line, if all names are meant"),
        format!("reading one answers {here}"),
        rust == 1 && here == 22,
    )]
}

/// 6. A packed table without entries.
fn empty_table(site: &Site) -> Vec<Seen> {
    let case = store(1, &["refs/heads/aisle"]).edit(delete(0));
    let odd = Odd { empty_packed_file: true, ..Odd::default() };
    let rust = prepared(&original::answer_oddly(site, &case, odd)).ours_packed;
    let here = archive::place_lock(&mut prepare(&case).0, Lockable::PackedTable).number;
    let input = "a packed file of no entries, refs/heads/aisle deleted in mode 1";
    vec![seen(
        6,
        input,
        format!("takes the packed lock: {rust}"),
        format!("placing that lock then answers {here}"),
        rust && here == 0,
    )]
}

/// 7. No committer, and a full log.
fn no_counterpart(site: &Site) -> Vec<Seen> {
    let linked = store(1, &["HEAD", "refs/heads/aisle"]).loose(0, link(1)).edit(update(0, object(7)).deref()).commit(0, ENOUGH);
    let rust = prepared(&original::answer(site, &linked)).end.number;
    let here = run(&linked).1;
    let mut full = store(1, &["HEAD"]).edit(update(0, object(7)));
    full.store.state.lines = vec![Line { name: 0, previous: 0, new: 5, committer: 1, message: 0 }; 1024];
    let lines = prepared(&original::answer(site, &full)).after.lines.len();
    let here_full = prepare(&full).1.number;
    let input = "the whole example of the edit list, committed with no committer";
    vec![
        seen(
            7,
            input,
            "gives MissingCommitter".to_owned(),
            format!("{} with {} writes made", here.number, here.places[0]),
            rust == 16 && here.number == 16,
        ),
        seen(
            7,
            "HEAD has 1,024 lines and is updated to 7",
            format!("leaves {lines} lines"),
            here_full.to_string(),
            lines == 1025 && here_full == 14,
        ),
    ]
}

/// 8. The null id.
fn null_id(site: &Site) -> Vec<Seen> {
    let case = store(1, &["refs/heads/aisle"]).edit(update(0, object(0)));
    let rust = original::answer(site, &case).reply.number;
    let here = prepare(&case).1.number;
    vec![seen(
        8,
        "refs/heads/aisle updated to object 0",
        format!("prepares it, {rust}"),
        here.to_string(),
        rust == 0 && here == 2,
    )]
}

/// Names where one lies beneath the other.
fn nested(setting: u8) -> Case {
    store(setting, &["refs/heads/a", "refs/heads/a/b"])
}

/// 9 and 10. What the Rust finds only at commit: a value above another.
fn refused_here(site: &Site) -> Vec<Seen> {
    let [upper, lower] = [0, 1].map(|name| update(name, object(7)));
    let inputs = [
        (9, "refs/heads/a/b loose 5, refs/heads/a updated to 7", nested(1).loose(1, object(5)).edit(upper)),
        (10, "refs/heads/a and refs/heads/a/b made in one list", nested(0).edit(upper).edit(lower)),
        (10, "refs/heads/a/b and refs/heads/a made in one list", nested(0).edit(lower).edit(upper)),
    ];
    let one = |(number, input, case): (usize, &str, Case)| {
        let (rust, failed) = failure(site, &case);
        let here = prepare(&case).1;
        let last = case.edits.len() - 1;
        let fine =
            explained(site, &case, number) && failed && (here.number, here.places[0]) == (25, case.edits[last].name as u64);
        seen(
            number,
            input,
            rust,
            format!("{} from prepare with {}", here.number, case.store.names[here.places[0] as usize]),
            fine,
        )
    };
    inputs.map(one).into_iter().collect()
}

/// 11 to 13. What the Rust's commit cannot do with files, and is done here.
fn done_here(site: &Site) -> Vec<Seen> {
    let [upper, lower] = [0, 1].map(|name| update(name, object(7)));
    let loose = || nested(0).loose(1, object(5));
    let packed = || nested(0).packed(0, 5);
    let inputs = [
        (11, "a/b loose 5, a deleted", loose().edit(delete(0))),
        (11, "a/b loose 5, a packed 5 and deleted", loose().packed(0, 5).edit(delete(0))),
        (11, "a/b loose 5, a updated to 7 in mode 3", loose().mode(3).edit(upper)),
        (11, "a packed 5 and deleted, a/b made in one list", packed().edit(delete(0)).edit(lower)),
        (12, "a made, a/b deleted in one list", nested(0).edit(upper).edit(delete(1))),
        (12, "a/b deleted, a made in one list", nested(0).edit(delete(1)).edit(upper)),
        (12, "a made, then a log-only update of a/b", nested(0).edit(upper).edit(lower.log_only())),
        (12, "a made as a link, a/b made in mode 3", nested(0).mode(3).edit(update(0, link(1))).edit(lower)),
        (
            12,
            "a/b's log updated, a made as a link in mode 3",
            nested(0).mode(3).edit(lower.log_only()).edit(update(0, link(1))),
        ),
        (12, "a/b's log deleted, a deleted in one list", nested(0).edit(delete(1).log_only()).edit(delete(0))),
        (12, "a/b locked by others, a made", nested(0).lock(1).edit(upper)),
        (12, "a/b locked by others, a deleted", nested(0).lock(1).edit(delete(0))),
        (12, "a deleted, a/b deleted in one list", nested(0).edit(delete(0)).edit(delete(1))),
        (12, "a made, a/b made in mode 3", nested(0).mode(3).edit(upper).edit(lower)),
        (13, "a/b has a log, a deleted", nested(1).line(1, 0, 5).edit(delete(0))),
        (13, "a has a log, a/b deleted", nested(1).line(0, 0, 5).edit(delete(1))),
        (13, "a/b has a log, a's log deleted", nested(1).line(1, 0, 5).edit(delete(0).log_only())),
        (13, "a/b has a log, a made", nested(1).line(1, 0, 5).edit(upper)),
        (13, "a has a log, a/b made", nested(1).line(0, 0, 5).edit(lower)),
        (13, "a/b made, a's log updated in one list", nested(1).edit(lower).edit(upper.log_only())),
        (13, "a and a/b have logs, no edit", nested(1).line(0, 0, 5).line(1, 0, 5)),
    ];
    let one = |(number, input, case): (usize, &str, Case)| {
        let (rust, failed) = failure(site, &case);
        let here = run(&case).1;
        let fine = explained(site, &case, number) && failed && here.number == 0;
        seen(number, input, rust, format!("{} with {} writes", here.number, here.places[0]), fine)
    };
    inputs.map(one).into_iter().collect()
}

/// What the Rust's commit fails with, in words, and whether it does.
fn failure(site: &Site, case: &Case) -> (String, bool) {
    let rust = original::answer(site, case);
    let Some(prepared) = &rust.prepared else {
        return ("has no directory for it".to_owned(), rust.reply.number == NO_LAYOUT);
    };
    let what = match prepared.end.number {
        NOT_PLACED => "a value cannot be moved into its place",
        NOT_REMOVED => "a value cannot be removed",
        NOT_LOGGED => "a log cannot be changed",
        _ => return (format!("answers {}", prepared.end.number), false),
    };
    let name = &case.store.names[prepared.end.places[1] as usize];
    (format!("gives an I/O error from commit after {} writes, {what}: {name}", prepared.end.places[0]), true)
}

/// 14. Bounds. Each input is run through the Rust too, which has none of them.
fn bounds(site: &Site) -> Vec<Seen> {
    let names: Vec<String> = (0..257).map(|number| format!("refs/heads/n{number}")).collect();
    let names: Vec<&str> = names.iter().map(String::as_str).collect();
    let passes = |case: &Case| original::answer(site, case).prepared.is_some_and(|prepared| prepared.end.number == 0);
    let many = store(1, &names).edit(update(256, object(7)));
    let edits = (0..33).fold(store(1, &names[..33]), |case, name| case.edit(update(name, object(7))));
    let long = format!("refs/heads/{}", "x".repeat(54));
    let longest = store(1, &[&long]).edit(update(0, object(7)));

    let mut region = image::encode(&store(1, &names[..256]).store, &crate::case::State::empty(256), None);
    let here_many = archive::add_name(&mut region, names[256]).number;
    let here_edits = prepare(&edits).1.number;
    let here_long = archive::add_name(&mut region, &long).number;
    let taken = |passes: bool| if passes { "takes it" } else { "refuses it" }.to_owned();
    let one = |input: &str, case: &Case, here: u32, number: u32| {
        let passes = passes(case);
        seen(14, input, taken(passes), here.to_string(), passes && here == number)
    };
    vec![
        one("a 257th name", &many, here_many, 19),
        one("a 33rd edit", &edits, here_edits, 2),
        one("a name of 65 bytes", &longest, here_long, 18),
    ]
}
