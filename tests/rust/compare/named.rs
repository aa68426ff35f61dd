//! Cases by name: the situations that gix-ref's own tests for these files are about, each written down anew, the marked examples
//! of the scope, and names beneath names. Each says what prepare answers and, if it is done, how many writes commit makes or how many rows
//! are rolled back; of a known difference it says what the archive answers.

use crate::build::{delete, link, object, store, update};
use crate::case::{Case, Edit, Expected, Target};

pub struct Named {
    pub about: String,
    pub case: Case,
    pub number: u32,
    pub count: u64,
    /// The known difference that it meets.
    pub known: Option<usize>,
}

/// A case that prepare passes.
fn done(about: &str, count: u64, case: Case) -> Named {
    Named { about: about.to_owned(), case, number: 0, count, known: None }
}

/// A case that prepare refuses.
fn refused(about: &str, number: u32, case: Case) -> Named {
    Named { about: about.to_owned(), case, number, count: 0, known: None }
}

/// The same, where the Rust's commit does not come to its end, or does something else.
fn apart(known: usize, named: Named) -> Named {
    Named { known: Some(known), ..named }
}

pub fn all() -> Vec<Named> {
    let parts = [
        deletes(),
        deletes_of_links(),
        packed_deletes(),
        updates(),
        updates_of_other_kinds(),
        expectations(),
        locks(),
        meetings(),
        modes(),
        modes_of_loose_values(),
        ends(),
        chains(),
        logs(),
        full_lists(),
        beneath_values(),
        turns_beneath_values(),
        beneath_nothing(),
        above_values(),
        two_that_nest(),
        directories(),
        nested_logs(),
    ];
    parts.into_iter().flatten().collect()
}

const PLAIN: [&str; 2] = ["HEAD", "refs/heads/aisle"];
const MATCH: fn(Target) -> Expected = Expected::MustExistAndMatch;

fn deletes() -> Vec<Named> {
    let gone = || store(1, &PLAIN);
    let there = || store(1, &PLAIN).loose(1, object(5)).line(1, 0, 5);
    vec![
        done("a delete of what is gone already", 0, gone().edit(delete(1))),
        done(
            "a delete of what is gone already, expected to match if it is there",
            0,
            gone().edit(delete(1).expect(Expected::ExistingMustMatch(object(5)))),
        ),
        refused("a delete of what had to exist", 9, gone().edit(delete(1).expect(Expected::MustExist))),
        refused("a delete of what had to exist and match", 9, gone().edit(delete(1).expect(MATCH(object(5))))),
        refused("a delete that expects nothing there", 13, gone().edit(delete(1).expect(Expected::MustNotExist))),
        refused("a delete with a wrong expected value", 12, there().edit(delete(1).expect(MATCH(object(6))))),
        refused(
            "a delete with a wrong expected value that need not be there",
            12,
            there().edit(delete(1).expect(Expected::ExistingMustMatch(object(6)))),
        ),
        done("a delete with the right expected value, log and value", 2, there().edit(delete(1).expect(MATCH(object(5))))),
        done("a delete of the log only", 1, there().edit(delete(1).log_only())),
        done("a delete of a broken value", 1, gone().broken(1).edit(delete(1))),
        refused("a delete of a broken value that must exist", 9, gone().broken(1).edit(delete(1).expect(Expected::MustExist))),
    ]
}

fn deletes_of_links() -> Vec<Named> {
    let linked = || store(1, &PLAIN).loose(0, link(1)).loose(1, object(5)).line(0, 0, 5).line(1, 0, 5);
    vec![
        done("a link deleted without deref, with its log", 2, linked().edit(delete(0))),
        done("a link deleted without deref, its log only", 1, linked().edit(delete(0).log_only())),
        done("a link deleted with deref: its log, and all of what it leads to", 3, linked().edit(delete(0).deref())),
        done("a link deleted with deref, log-only: both logs", 2, linked().edit(delete(0).deref().log_only())),
        refused(
            "P4: a link deleted with deref, the object expected of both",
            12,
            linked().edit(delete(0).deref().expect(MATCH(object(5)))),
        ),
        done("a link deleted without deref, the link expected", 2, linked().edit(delete(0).expect(MATCH(link(1))))),
    ]
}

fn packed_deletes() -> Vec<Named> {
    let names = ["refs/heads/aisle", "refs/tags/v1", "refs/bisect/bad"];
    let packed = || store(1, &names).packed(0, 3).packed(1, 4);
    vec![
        done("a packed value consulted for a delete, and removed", 1, packed().edit(delete(0).expect(MATCH(object(3))))),
        refused("a packed value that is not the expected one", 12, packed().edit(delete(0).expect(MATCH(object(4))))),
        done("all packed values deleted at once", 1, packed().edit(delete(0)).edit(delete(1))),
        done("P10: a loose value over an older packed one, deleted", 2, packed().loose(0, object(5)).edit(delete(0))),
        done(
            "P10, stopped after the packed write: it never reads 3",
            1,
            packed().loose(0, object(5)).edit(delete(0)).commit(1, 1),
        ),
        done("a broken value over a packed one, deleted", 2, packed().broken(0).edit(delete(0).expect(MATCH(object(3))))),
        done(
            "a private name deleted beside a packed table: the table is not opened",
            1,
            packed().loose(2, object(5)).edit(delete(2)),
        ),
        refused(
            "a log-only delete does not see the packed value",
            9,
            packed().edit(delete(0).log_only().expect(Expected::MustExist)),
        ),
        done(
            "a log-only delete beside one that opens the table sees it",
            1,
            packed().edit(delete(0).log_only().expect(Expected::MustExist)).edit(delete(1)),
        ),
        refused("a delete and a foreign lock on the packed table", 7, packed().lock_packed().edit(delete(0))),
        refused("a foreign lock on a packed table that is not there", 7, store(1, &names).lock_packed().edit(delete(0))),
        done(
            "a private name and a foreign lock on the packed table",
            1,
            packed().lock_packed().loose(2, object(5)).edit(delete(2)),
        ),
    ]
}

fn updates() -> Vec<Named> {
    let linked = || store(1, &PLAIN).loose(0, link(1));
    vec![
        done(
            "P1: HEAD links to what is not there yet, and is updated through it, with both logs",
            3,
            linked().edit(update(0, object(7)).deref()),
        ),
        done(
            "P2: updated once more",
            3,
            linked().loose(1, object(7)).line(0, 0, 7).line(1, 0, 7).edit(update(0, object(9)).deref()),
        ),
        done(
            "P3: the same value again",
            0,
            linked().loose(1, object(9)).line(0, 7, 9).line(1, 7, 9).edit(update(0, object(9)).deref()),
        ),
        done(
            "a ref updated directly while HEAD links to it: HEAD's log gets no line",
            2,
            linked().loose(1, object(5)).line(0, 0, 5).edit(update(1, object(7))),
        ),
    ]
}

fn updates_of_other_kinds() -> Vec<Named> {
    let linked = || store(1, &PLAIN).loose(0, link(1));
    vec![
        done("a link made over an object: no line", 1, linked().loose(1, object(5)).edit(update(1, link(0)))),
        done("an object made over a link, without deref", 2, linked().edit(update(0, object(7)))),
        done("the same link again is a write", 1, linked().edit(update(0, link(1)))),
        done(
            "a new link that expects an object there: a line from nothing to it",
            2,
            store(1, &PLAIN).edit(update(0, link(1)).expect(Expected::ExistingMustMatch(object(5)))),
        ),
        done("a link through a link", 1, linked().edit(update(0, link(0)).deref())),
        done("an object over a broken value", 2, store(1, &PLAIN).broken(1).edit(update(1, object(7)))),
        done("a log-only update", 1, store(1, &PLAIN).loose(1, object(5)).edit(update(1, object(7)).log_only())),
        done(
            "an update of what is packed only",
            2,
            store(1, &PLAIN).packed(1, 3).edit(update(1, object(7)).expect(MATCH(object(3)))),
        ),
        done("an update to what is packed already: no write", 0, store(1, &PLAIN).packed(1, 3).edit(update(1, object(3)))),
    ]
}

/// Each expectation on a name with another value, with the new one, and with none.
fn expectations() -> Vec<Named> {
    let kinds = [
        ("any", Expected::Any, [0, 0, 0]),
        ("must exist", Expected::MustExist, [0, 0, 11]),
        ("must not exist", Expected::MustNotExist, [10, 0, 0]),
        ("must exist and match 5", MATCH(object(5)), [0, 12, 11]),
        ("must exist and match a link", MATCH(link(0)), [12, 12, 11]),
        ("existing must match 5", Expected::ExistingMustMatch(object(5)), [0, 12, 0]),
        ("existing must match a link", Expected::ExistingMustMatch(link(0)), [12, 12, 0]),
    ];
    let values = [("5 is", Some(object(5)), 2), ("7 is", Some(object(7)), 0), ("nothing is", None, 2)];
    let mut list = Vec::new();
    for (words, expected, numbers) in kinds {
        for ((there, value, writes), number) in values.iter().zip(numbers) {
            let mut case = store(1, &PLAIN).edit(update(1, object(7)).expect(expected));
            if let Some(value) = value {
                case = case.loose(1, *value);
            }
            let about = format!("update to 7, {words}, where {there} there");
            list.push(if number == 0 { done(&about, *writes, case) } else { refused(&about, number, case) });
        }
    }
    list.push(refused(
        "P11: a log-only update that must exist, alone, on a packed name",
        11,
        store(1, &PLAIN).packed(1, 3).edit(update(1, object(7)).log_only().expect(Expected::MustExist)),
    ));
    list
}

fn locks() -> Vec<Named> {
    let names = ["HEAD", "refs/heads/aisle", "refs/tags/v1"];
    let linked = || store(1, &names).loose(0, link(1)).loose(1, link(2));
    vec![
        refused(
            "the third edit's lock is foreign: nothing stays locked",
            8,
            store(1, &names).lock(2).edit(update(0, object(7))).edit(delete(1)).edit(update(2, object(7))),
        ),
        refused(
            "a lock at the end of the links: the first name is given",
            8,
            linked().lock(2).edit(update(0, object(7)).deref()),
        ),
        refused(
            "a lock on an update that changes nothing",
            8,
            store(1, &names).loose(1, object(7)).lock(1).edit(update(1, object(7))),
        ),
        refused(
            "the lock is judged before the expected value",
            8,
            store(1, &names).lock(1).edit(delete(1).expect(Expected::MustNotExist)),
        ),
        refused(
            "the earlier row's expected value is judged before the later row's lock",
            11,
            store(1, &names).lock(2).edit(update(1, object(7)).expect(Expected::MustExist)).edit(delete(2)),
        ),
        done("a lock on a name that no row has", 2, store(1, &names).lock(2).edit(update(1, object(7)))),
    ]
}

fn meetings() -> Vec<Named> {
    let names = ["HEAD", "ORIG_HEAD", "refs/heads/aisle", "refs/heads/bay"];
    let linked = || store(1, &names).loose(0, link(2)).loose(1, link(2));
    vec![
        refused(
            "two edits that meet only after splitting",
            6,
            linked().edit(update(0, object(7)).deref()).edit(update(1, object(7)).deref()),
        ),
        refused("an edit and the end of another's link", 6, linked().edit(update(2, object(7))).edit(delete(0).deref())),
        done("the same two edits without deref", 4, linked().edit(update(0, object(7))).edit(update(1, object(7)).force())),
        refused("the same name twice", 6, store(1, &names).edit(update(3, object(7))).edit(delete(3))),
        refused(
            "two names twice: the least in byte order",
            6,
            store(1, &names).edit(update(3, object(7))).edit(delete(3)).edit(delete(2)).edit(delete(2)),
        ),
        refused(
            "a name twice, and links without end: links first",
            4,
            store(1, &names).loose(3, link(3)).edit(delete(2)).edit(delete(2)).edit(delete(3).deref()),
        ),
        done("P9: no edits", 0, store(1, &names)),
    ]
}

/// Names that can be packed among names that cannot.
const MIXED: [&str; 6] =
    ["HEAD", "refs/heads/aisle", "refs/tags/v1", "refs/bisect/bad", "refs/worktree/own", "refs/rewritten/label"];

fn modes() -> Vec<Named> {
    let mixed = || {
        let case = store(1, &MIXED).loose(1, object(5)).packed(1, 3).packed(2, 4).loose(4, object(6));
        case.edit(update(1, object(7))).edit(update(2, object(8))).edit(update(3, link(1))).edit(delete(4))
    };
    vec![
        done("deletions only: values go to loose files", 5, mixed()),
        done("updates are packed too", 6, mixed().mode(2)),
        done("updates are packed, and loose values go", 5, mixed().mode(3)),
        done(
            "mode 3 packs what is loose already, without a line",
            2,
            store(1, &MIXED).loose(1, object(7)).mode(3).edit(update(1, object(7))),
        ),
        done(
            "mode 3 packs what is packed already: a write that changes nothing",
            1,
            store(1, &MIXED).packed(1, 7).mode(3).edit(update(1, object(7))),
        ),
        done(
            "mode 3, HEAD and what it links to",
            4,
            store(1, &MIXED).loose(0, link(1)).loose(1, object(5)).mode(3).edit(update(0, object(7)).deref()),
        ),
    ]
}

fn modes_of_loose_values() -> Vec<Named> {
    vec![
        done("mode 2, a private name is written loose", 1, store(1, &MIXED).mode(2).edit(update(3, object(7)))),
        done("mode 3, a link is written loose", 1, store(1, &MIXED).mode(3).edit(update(1, link(2)))),
        done(
            "mode 3, a log-only update keeps its lock",
            1,
            store(1, &MIXED).loose(1, object(5)).mode(3).edit(update(1, object(7)).log_only()),
        ),
        done(
            "mode 2, a delete beside an update, with nothing packed",
            4,
            store(1, &MIXED).loose(2, object(5)).mode(2).edit(update(1, object(7))).edit(delete(2)),
        ),
        refused(
            "mode 2 and a foreign lock on the packed table",
            7,
            store(1, &MIXED).lock_packed().mode(2).edit(update(1, object(7))),
        ),
        done(
            "mode 2 with links only does not open a table that is not there",
            1,
            store(1, &MIXED).mode(2).edit(update(1, link(2))),
        ),
    ]
}

fn ends() -> Vec<Named> {
    let linked = || store(1, &PLAIN).loose(0, link(1)).edit(update(0, object(7)).deref());
    vec![
        done("rollback after prepare", 2, linked().rollback()),
        done("rollback in mode 3 with a packed table", 2, linked().packed(1, 3).mode(3).rollback()),
        done("rollback of no rows", 0, store(1, &PLAIN).rollback()),
        done("no writes allowed", 0, linked().commit(1, 0)),
        done("one write allowed", 1, linked().commit(1, 1)),
        done("two writes allowed", 2, linked().commit(1, 2)),
        done("as many writes allowed as there are", 3, linked().commit(1, 3)),
        done("no committer, and a line first", 0, linked().commit(0, 9)),
        done("no committer and no writes allowed: the allowance first", 0, linked().commit(0, 0)),
        done("no committer and no line", 1, store(1, &PLAIN).edit(update(1, link(0))).commit(0, 9)),
    ]
}

/// Chains of links: four hops pass, five do not.
fn chains() -> Vec<Named> {
    let names = ["HEAD", "refs/heads/a", "refs/heads/b", "refs/heads/c", "refs/heads/d", "refs/heads/e"];
    let chain = |hops: usize| (0..hops).fold(store(1, &names), |case, name| case.loose(name, link(name + 1)));
    vec![
        done("P5: four hops", 6, chain(4).edit(update(0, object(7)).deref())),
        done(
            "four hops to an object: all lines begin with it",
            6,
            chain(4).loose(4, object(5)).edit(update(0, object(7)).deref()),
        ),
        refused("P6: five hops", 4, chain(5).edit(update(0, object(7)).deref())),
        refused("five hops, deleted", 4, chain(5).edit(delete(0).deref())),
        done("five hops without deref", 2, chain(5).edit(update(0, object(7)))),
        refused("P7: a link to itself", 4, store(1, &names).loose(0, link(0)).edit(update(0, object(7)).deref())),
        done(
            "a leaf that is absent hands up what it expects",
            2,
            chain(1).edit(update(0, object(7)).deref().expect(Expected::ExistingMustMatch(object(7)))),
        ),
        done(
            "P8: expects nothing where the new value is there",
            0,
            chain(1).loose(1, object(7)).edit(update(0, object(7)).deref().expect(Expected::MustNotExist)),
        ),
    ]
}

fn logs() -> Vec<Named> {
    let names = ["HEAD", "FETCH_HEAD", "refs/heads/a", "refs/remotes/o/a", "refs/notes/a", "refs/tags/a", "refs/bisect/a"];
    let each = |setting: u8| (0..names.len()).fold(store(setting, &names), |case, name| case.edit(update(name, object(7))));
    let forced =
        |setting: u8| (0..names.len()).fold(store(setting, &names), |case, name| case.edit(update(name, object(7)).force()));
    let logged = |setting: u8| (0..names.len()).fold(each(setting), |case, name| case.line(name, 0, 5));
    vec![
        done("setting 0: no line", 7, each(0)),
        done("setting 1: HEAD, branches, remote branches and notes", 11, each(1)),
        done("setting 2: HEAD and all beneath refs/", 13, each(2)),
        done("setting 0 with force: no line", 7, forced(0)),
        done("setting 1 with force: all", 14, forced(1)),
        done("setting 2 with force: all", 14, forced(2)),
        done("setting 1 with logs: all", 14, logged(1)),
        done("setting 2 with logs: all", 14, logged(2)),
        done("setting 0 with logs: no line", 7, logged(0)),
    ]
}

/// As many edits as a list takes, and as many rows as they can come to.
fn full_lists() -> Vec<Named> {
    let names: Vec<String> = (0..160).map(|number| format!("refs/heads/n{number}")).collect();
    let names: Vec<&str> = names.iter().map(String::as_str).collect();
    let edits = |case: Case| (0..32).fold(case, |case, name| case.edit(update(name, object(7)).deref()));
    // Name n links to name n + 32, up to the last 32 names.
    let linked = (0..128).fold(store(1, &names), |case, name| case.loose(name, link(name + 32)));
    vec![
        done("32 edits", 64, edits(store(1, &names[..32]))),
        done("32 edits through four links each: 160 rows", 192, edits(linked.clone())),
        done("the same in mode 3, stopped before the packed write", 160, edits(linked).mode(3).commit(1, 160)),
    ]
}

/// Two names of which one lies beneath the other, one that lies beneath both, one that only begins alike, and one to come from.
const NESTED: [&str; 5] = ["refs/heads/a", "refs/heads/a/b", "refs/heads/a/b/c", "refs/heads/ab", "HEAD"];

/// An update to 7.
fn made(name: usize) -> Edit {
    update(name, object(7))
}

/// 25, (a): whatever a row does, its name lies beneath a loose value.
fn beneath_values() -> Vec<Named> {
    let names = || store(1, &NESTED);
    let under = || names().loose(0, object(5));
    vec![
        refused("an update beneath an object", 25, under().edit(made(1))),
        refused("an update beneath a link", 25, names().loose(0, link(3)).edit(made(1))),
        refused("an update beneath a broken value", 25, names().broken(0).edit(made(1))),
        refused("an update further beneath", 25, under().edit(made(2))),
        refused("a link beneath an object", 25, under().edit(update(1, link(3)))),
        refused("a delete beneath an object", 25, under().edit(delete(1))),
        refused("a delete beneath an object, of what is packed", 25, under().packed(1, 3).edit(delete(1))),
        refused("a delete of a log beneath an object", 25, under().line(1, 0, 5).edit(delete(1).log_only())),
        refused("an update of a log beneath an object", 25, under().edit(made(1).log_only())),
        refused("an update beneath an object to what is packed already", 25, under().packed(1, 7).edit(made(1))),
        refused("a direct update beneath an object", 25, under().mode(3).edit(made(1))),
        refused("an update beneath an object, to be rolled back", 25, under().edit(made(1)).rollback()),
        refused("the end of a link lies beneath an object", 25, under().loose(4, link(1)).edit(made(4).deref())),
        refused("the end of a link lies beneath an object, deleted", 25, under().loose(4, link(2)).edit(delete(4).deref())),
        done("a link that leads beneath an object, without deref", 2, under().loose(4, link(1)).edit(made(4))),
    ]
}

/// 25, (a), and the other refusals: what comes first.
fn turns_beneath_values() -> Vec<Named> {
    let under = || store(1, &NESTED).loose(0, object(5));
    vec![
        refused("25 before what is expected of an update", 25, under().edit(made(1).expect(Expected::MustExist))),
        refused("25 before what is expected of a delete", 25, under().edit(delete(1).expect(Expected::MustExist))),
        refused("25 before a delete that expects nothing there", 25, under().edit(delete(1).expect(Expected::MustNotExist))),
        refused("25 before a foreign lock of the same row", 25, under().lock(1).edit(made(1))),
        refused("25 after a foreign lock of an earlier row", 8, under().lock(3).edit(made(3)).edit(made(1))),
        refused("25 before a foreign lock of a later row", 25, under().lock(3).edit(made(1)).edit(made(3))),
        refused(
            "25 after what is expected of an earlier row",
            11,
            under().edit(made(3).expect(Expected::MustExist)).edit(made(1)),
        ),
        refused("25 after a foreign lock on the packed table", 7, under().lock_packed().edit(made(1))),
        refused("25 after two rows of one name", 6, under().edit(made(1)).edit(delete(1))),
        refused("25 after links without end", 4, under().loose(4, link(4)).edit(made(1)).edit(delete(4).deref())),
        refused("the first of two rows beneath an object", 25, under().edit(made(2)).edit(made(1))),
        refused("an object deleted, and a name beneath it made: it takes two", 25, under().edit(delete(0)).edit(made(1))),
        refused("the same, the lower first", 25, under().edit(made(1)).edit(delete(0))),
        done("a foreign lock beneath an object that is deleted", 1, under().lock(1).edit(delete(0))),
    ]
}

/// Names nest, and nothing stands in the way.
fn beneath_nothing() -> Vec<Named> {
    let names = || store(1, &NESTED);
    let quiet = || store(0, &NESTED);
    let packed = || names().packed(0, 3).packed(1, 3);
    let over_packed = || names().loose(0, object(5)).packed(1, 3);
    vec![
        done("an update beneath a packed value", 2, names().packed(0, 3).edit(made(1))),
        done("an update above a packed value", 2, names().packed(1, 3).edit(made(0))),
        done("a delete beneath a packed value", 1, packed().edit(delete(1))),
        done("a delete above a packed value", 1, packed().edit(delete(0))),
        done("a value above a packed one, updated", 2, over_packed().edit(made(0))),
        done("a value above a packed one, deleted", 1, over_packed().edit(delete(0))),
        done("a name that only begins alike", 2, names().loose(0, object(5)).edit(made(3))),
        done("the log alone, above an object", 1, names().loose(1, object(5)).edit(made(0).log_only())),
        done("the log alone deleted, above an object", 0, names().loose(1, object(5)).edit(delete(0).log_only())),
        done("two deletes of packed values, the lower first", 1, packed().edit(delete(1)).edit(delete(0))),
        done("two direct updates, the lower first", 1, quiet().mode(3).edit(made(1)).edit(made(0))),
        done("an update above one that changes nothing", 2, names().packed(1, 7).edit(made(1)).edit(made(0))),
        done("an update beneath a log-only delete", 1, quiet().edit(delete(0).log_only()).edit(made(1))),
        done("a log-only update beneath, then an update above", 1, quiet().edit(made(1).log_only()).edit(made(0))),
    ]
}

/// 25, (b): difference 9.
fn above_values() -> Vec<Named> {
    let names = || store(1, &NESTED);
    let over = || names().loose(1, object(5));
    let refused_here = |about: &str, case: Case| apart(9, refused(about, 25, case));
    vec![
        refused_here("an update above an object", over().edit(made(0))),
        refused_here("an update above a link", names().loose(1, link(3)).edit(made(0))),
        refused_here("an update above a broken value", names().broken(1).edit(made(0))),
        refused_here("an update further above", names().loose(2, object(5)).edit(made(0))),
        refused_here("a link above an object", over().edit(update(0, link(3)))),
        refused_here("a link above an object, in mode 3", over().mode(3).edit(update(0, link(3)))),
        refused_here("an update above an object, packed too", over().mode(2).edit(made(0))),
        refused_here("an update above an object, from a packed value", over().packed(0, 3).edit(made(0))),
        refused_here("an update above an object, to be rolled back", over().edit(made(0)).rollback()),
        refused_here("an update above an object that is deleted", over().edit(delete(1)).edit(made(0))),
        refused_here("the end of a link lies above an object", over().loose(4, link(0)).edit(made(4).deref())),
        refused_here("25 before what is expected, above an object", over().edit(made(0).expect(Expected::MustExist))),
        refused_here("25 before a foreign lock, above an object", over().lock(0).edit(made(0))),
        refused("an object above an object, after a foreign lock", 8, over().lock(3).edit(made(3)).edit(made(0))),
        done("an update above an object, to what is packed already", 0, over().packed(0, 7).edit(made(0))),
    ]
}

/// 25, (c): difference 10.
fn two_that_nest() -> Vec<Named> {
    let names = || store(1, &NESTED);
    let two = |first: Edit, second: Edit| names().edit(first).edit(second);
    let linked = || names().loose(3, link(1)).loose(4, link(0));
    let refused_here = |about: &str, case: Case| apart(10, refused(about, 25, case));
    vec![
        refused_here("two updates, the upper first", two(made(0), made(1))),
        refused_here("two updates, the lower first", two(made(1), made(0))),
        refused_here("two links, the upper first", two(update(0, link(3)), update(2, link(3)))),
        refused_here("two links in mode 3, the lower first", two(update(2, link(3)), update(0, link(3))).mode(3)),
        refused_here("two updates, one in between", two(made(0), made(3)).edit(made(1))),
        refused_here("two updates, to be rolled back", two(made(0), made(1)).rollback()),
        refused_here("the ends of two links", linked().edit(made(3).deref()).edit(made(4).deref())),
        refused_here("the later row's lock is foreign", two(made(0), made(1)).lock(1)),
        refused("the earlier row's lock is foreign", 8, two(made(0), made(1)).lock(0)),
        refused("the earlier row is refused for what it expects", 11, two(made(0).expect(Expected::MustExist), made(1))),
    ]
}

/// Differences 11 and 12: a directory stands where the Rust's commit wants to move a value, or to remove one.
fn directories() -> Vec<Named> {
    let names = || store(0, &NESTED);
    let over = || names().loose(1, object(5));
    let packed = || names().packed(0, 3).packed(1, 3);
    let direct = |case: Case| case.mode(3);
    let value = |about: &str, count: u64, case: Case| apart(11, done(about, count, case));
    let lock = |about: &str, count: u64, case: Case| apart(12, done(about, count, case));
    vec![
        value("a delete above an object", 0, over().edit(delete(0))),
        value("a delete of a packed value above an object", 1, over().packed(0, 3).edit(delete(0))),
        value("a direct update above an object", 1, direct(over()).edit(made(0))),
        value("a packed value deleted, a name beneath it made", 2, packed().edit(delete(0)).edit(made(1))),
        value("a direct update above a link that is made", 2, direct(names()).edit(update(1, link(3))).edit(made(0))),
        value("a direct update, then a delete beneath it", 2, direct(over()).edit(made(0)).edit(delete(1))),
        done("a delete, then a direct update above it", 2, direct(over()).edit(delete(1)).edit(made(0))),
        lock("an update above a delete", 1, names().edit(made(0)).edit(delete(1))),
        lock("an update above a delete, the lower first", 1, names().edit(delete(1)).edit(made(0))),
        lock("an update above a log-only update", 1, names().edit(made(0)).edit(made(1).log_only())),
        lock("a link above a direct update", 2, direct(names()).edit(update(0, link(3))).edit(made(1))),
        lock("a link above a log-only update in mode 3", 1, direct(names()).edit(made(1).log_only()).edit(update(0, link(3)))),
        lock("a delete above a log-only delete", 1, packed().edit(delete(1).log_only()).edit(delete(0))),
        lock("an update above a foreign lock", 1, names().lock(1).edit(made(0))),
        lock("a delete above a foreign lock", 1, packed().lock(1).edit(delete(0))),
        lock("two deletes, the upper first", 1, packed().edit(delete(0)).edit(delete(1))),
        lock("two direct updates, the upper first", 1, direct(names()).edit(made(0)).edit(made(1))),
    ]
}

/// Difference 13: logs are files too.
fn nested_logs() -> Vec<Named> {
    let names = || store(1, &NESTED);
    let upper = || names().line(0, 0, 5);
    let lower = || names().line(1, 0, 5);
    let both = || upper().line(1, 0, 5);
    let log = |about: &str, count: u64, case: Case| apart(13, done(about, count, case));
    vec![
        log("a delete above a log", 0, lower().edit(delete(0))),
        log("a delete beneath a log", 0, upper().edit(delete(1))),
        log("a log-only delete above a log", 0, lower().edit(delete(0).log_only())),
        log("a line above a log", 2, lower().edit(made(0))),
        log("a line beneath a log", 2, upper().edit(made(1))),
        log("two lines in one list", 3, names().edit(made(1)).edit(made(0).log_only())),
        log("a log above a log", 2, both().edit(made(3))),
        apart(13, refused("logs above and beneath, and 25", 25, both().loose(0, object(5)).edit(made(1)))),
        apart(9, refused("logs above and beneath, and 25 above an object", 25, both().loose(1, object(5)).edit(made(0)))),
        log("two deletes of logs, the upper first", 1, lower().edit(delete(0)).edit(delete(1))),
        done("two deletes of logs, the lower first", 1, lower().edit(delete(1)).edit(delete(0))),
        done("an update above a log, with setting 0", 1, store(0, &NESTED).line(1, 0, 5).edit(made(0))),
    ]
}

/// Two transactions in one directory: the second finds what the first left. The first makes one write.
pub fn pairs() -> Vec<(Named, Named)> {
    [pairs_of_values(), pairs_of_logs()].into_iter().flatten().collect()
}

fn pair(about: &str, first: Case, second: Named) -> (Named, Named) {
    (done(about, 1, first), second)
}

fn pairs_of_values() -> Vec<(Named, Named)> {
    let quiet = || store(0, &NESTED);
    let with = |name: usize| quiet().loose(name, object(7));
    vec![
        pair(
            "an object deleted",
            with(0).edit(delete(0)),
            done("an object deleted, then a name beneath it made", 1, quiet().edit(made(1))),
        ),
        pair(
            "an object deleted beneath a name",
            with(1).edit(delete(1)),
            done("an object deleted, then a name above it made", 1, quiet().edit(made(0))),
        ),
        pair(
            "an object deleted further beneath a name",
            with(2).edit(delete(2)),
            done("an object deleted, then a name further above it made", 1, quiet().edit(made(0))),
        ),
        pair("a name made", quiet().edit(made(0)), refused("a name made, then one beneath it", 25, with(0).edit(made(1)))),
        pair(
            "a direct update",
            quiet().mode(3).edit(made(1)),
            done("a direct update, then an update above it", 1, quiet().packed(1, 7).edit(made(0))),
        ),
        pair(
            "an update above a packed value, first",
            quiet().packed(1, 7).edit(made(0)),
            refused("an update above a packed value, then that one deleted", 25, with(0).packed(1, 7).edit(delete(1))),
        ),
    ]
}

fn pairs_of_logs() -> Vec<(Named, Named)> {
    let logged = || store(1, &NESTED);
    vec![
        pair(
            "a log removed beneath a name",
            logged().line(2, 0, 5).edit(delete(2)),
            done("a log removed, then one above it made", 2, logged().edit(made(0))),
        ),
        pair(
            "a log removed above a name",
            logged().line(0, 0, 5).edit(delete(0)),
            done("a log removed, then one beneath it made", 2, logged().edit(made(1))),
        ),
    ]
}
