//! Refusals, targets, places and outcomes in words.

use crate::plain::{LOCKABLE_NAME, LOCKABLE_PACKED_TABLE};
use crate::site::*;
use crate::tally::*;
use dehlbazin::*;

/// Both ways to say why a list is refused: with the store's names, and without.
#[track_caller]
fn says(store: &mut Store<'_>, edits: &[RefEdit], words: &str, numbers: &str) {
    match store.prepare(&list(edits), MODE).err() {
        Some(refusal) => {
            same(refusal.in_words(&*store).to_string(), words.to_string());
            same(refusal.to_string(), numbers.to_string());
        }
        None => check(false, "refused"),
    }
}

fn refusals() {
    use PreviousValue::*;
    let mut region = marked();
    let mut store = done(Store::open(&mut region));
    let store = &mut store;
    done(store.load_loose(AISLE, link(HEAD)));
    let tag = done(store.add_name("refs/tags/spring"));
    let update = |name, expected| [RefEdit::update(name, expected, object(7))];
    let delete = |expected| [RefEdit::delete(tag, expected)];
    let out_of_date = update(AISLE, MustExistAndMatch(object(9)));
    says(
        store,
        &out_of_date,
        "refs/heads/aisle: expected object 9, found a link to HEAD",
        "name 1: expected object 9, found a link to name 0",
    );
    says(
        store,
        &update(HEAD, MustNotExist),
        "HEAD: expected nothing, found a link to refs/heads/aisle where object 7 was to be written",
        "name 0: expected nothing, found a link to name 1 where object 7 was to be written",
    );
    let tags = |words: &str| (format!("refs/tags/spring: {words}"), format!("name 2: {words}"));
    let mut of_tag = |edits: &[RefEdit], words: &str| says(store, edits, &tags(words).0, &tags(words).1);
    of_tag(&update(tag, MustExist), "expected a value, found nothing");
    of_tag(&update(tag, MustExistAndMatch(object(8))), "expected object 8, found nothing");
    of_tag(&delete(MustExist), "to be deleted, but nothing is there");
    of_tag(&delete(MustNotExist), "a delete that expects nothing");
    of_tag(&[delete(Any), delete(Any)].concat(), "two rows have this name");
    done(store.place_lock(tag));
    let words = tags("its lock is foreign, or that of a name that its links lead to");
    says(store, &delete(Any), &words.0, &words.1);
    let shelf = done(store.add_name("refs/heads/aisle/shelf"));
    let words = "a name above or beneath it has a loose value, or would get one";
    let below = [RefEdit::delete(shelf, Any)];
    says(store, &below, &format!("refs/heads/aisle/shelf: {words}"), &format!("name 3: {words}"));
    let words = "links are still followed in a fifth round";
    says(store, &[update(HEAD, Any)[0].through_links()], words, words);
    same(done(NameNumber::new(65536).map_err(|r| r.to_string()).err().ok_or(())), "name 65536: no name has this number".into());
}

/// Those that are about no name say the same either way; each has words of its own.
fn without_names() {
    let mut region = marked();
    let store = done(Store::open(&mut region));
    let refusals = [
        (1, Refusal::BadRegion, "the region holds no good store, or the bytes are no good receiver"),
        (2, Refusal::Malformed, "an edit list, an object, a committer or a message is malformed"),
        (3, Refusal::NotRegistered { number: 1 << 40 }, "name 1099511627776: no name has this number"),
        (4, Refusal::ReferenceCycle, "links are still followed in a fifth round"),
        (5, Refusal::TooManyRows, "the edits come to more than 160 rows"),
        (7, Refusal::PackedTransactionAcquire, "the lock of the packed table is foreign"),
        (14, Refusal::LogFull, "the log has no room for the lines that are due"),
        (15, Refusal::WrongState, "a transaction is prepared and must not be, or none is and must be"),
        (18, Refusal::BadName, "the bytes are no name"),
        (19, Refusal::NamesFull, "256 names are held"),
        (20, Refusal::WrongLock, "the lock to be placed is not free, or the lock to be lifted is not foreign"),
        (21, Refusal::BadLoad, "this value cannot be loaded there"),
        (22, Refusal::NothingThere, "there is no such log line, row or committer"),
        (23, Refusal::MalformedRecord, "the settings record is malformed, or a setting is out of bounds"),
        (24, Refusal::UnknownVersion, "the settings record has a version that is not known"),
        (26, Refusal::ReceiverFull, "the fragment is longer than the room that is left in the receiver"),
        (27, Refusal::MalformedLine { line: 70_001 }, "line 70001: this line of the packed table's text is malformed"),
        (32, Refusal::TextTooLong, "the buffer is shorter than the packed table's text"),
        (33, Refusal::ShortBuffer, "the buffer is shorter than the settings record"),
        (99, Refusal::Unexpected { number: 99 }, "an answer of the archive that this crate does not know, with number 99"),
    ];
    for (number, refusal, words) in refusals {
        same(refusal.number(), number);
        same(refusal.to_string(), words.to_string());
        same(refusal.in_words(&store).to_string(), words.to_string());
    }
}

fn others() {
    let mut region = marked();
    let mut store = done(Store::open(&mut region));
    same(object(9).to_string(), "object 9".to_string());
    same(link(AISLE).to_string(), "a link to name 1".to_string());
    same(link(AISLE).in_words(&store).to_string(), "a link to refs/heads/aisle".to_string());
    same(link(NameNumber(300)).in_words(store.view()).to_string(), "a link to name 300".to_string());
    same(Outcome::AllWritten { writes: 1 }.to_string(), "1 write".to_string());
    same(Outcome::UsedUp { writes: 3 }.to_string(), "stopped after 3 writes: the allowance is used up".to_string());
    same(Outcome::NoCommitter { writes: 0 }.to_string(), "stopped after 0 writes: a log line has no committer".to_string());
    let transaction = done(store.prepare(&EditList::new(), MODE));
    same(object(9).in_words(&transaction).to_string(), "object 9".to_string());
    let error: Box<dyn std::error::Error> = Refusal::BadName.into();
    same(error.to_string(), "the bytes are no name".to_string());
}

/// A place in words; and what was found, with its value before it where there is one.
fn places() {
    let mut region = marked();
    let store = done(Store::open(&mut region));
    let words = ["loose", "packed", "packed behind a broken loose", "absent", "absent behind a broken loose"];
    for (place, words) in PLACES.into_iter().zip(words) {
        same(place.to_string(), words.to_string());
        let nothing = Found { target: None, place };
        same(nothing.to_string(), words.to_string());
        same(nothing.in_words(&store).to_string(), words.to_string());
        let seven = Found { target: Some(object(7)), place };
        same(seven.to_string(), format!("object 7, {words}"));
        same(seven.in_words(&store).to_string(), format!("object 7, {words}"));
    }
    let linked = done(store.read_name(HEAD));
    same(linked.to_string(), "a link to name 1, loose".to_string());
    same(linked.in_words(&store).to_string(), "a link to refs/heads/aisle, loose".to_string());
}

/// Every place, in the order of its number.
const PLACES: [Place; 5] = [Place::Loose, Place::Packed, Place::PackedBehindBroken, Place::Absent, Place::AbsentBehindBroken];

/// Every refusal that has a number of docs/SPEC.md's table.
fn every() -> Vec<Refusal> {
    let (name, target) = (AISLE, object(1));
    vec![
        Refusal::BadRegion,
        Refusal::Malformed,
        Refusal::NotRegistered { number: 9 },
        Refusal::ReferenceCycle,
        Refusal::TooManyRows,
        Refusal::MultipleEdits { name },
        Refusal::PackedTransactionAcquire,
        Refusal::LockAcquire { name },
        Refusal::DeleteReferenceMustExist { name },
        Refusal::MustNotExist { name, actual: target, new: target },
        Refusal::MustExist { name, expected: None },
        Refusal::ReferenceOutOfDate { name, expected: target, actual: target },
        Refusal::DeleteMustNotExist { name },
        Refusal::LogFull,
        Refusal::WrongState,
        Refusal::BadName,
        Refusal::NamesFull,
        Refusal::WrongLock,
        Refusal::BadLoad,
        Refusal::NothingThere,
        Refusal::MalformedRecord,
        Refusal::UnknownVersion,
        Refusal::NameConflict { name },
        Refusal::ReceiverFull,
        Refusal::MalformedLine { line: 1 },
        Refusal::TextTooLong,
        Refusal::ShortBuffer,
    ]
}

/// 'BadName' as 'BAD_NAME', of what is behind it nothing.
fn in_capitals(debug: &str) -> String {
    let word = debug.split(' ').next().unwrap_or("");
    let parts = word.chars().map(|c| if c.is_uppercase() { format!("_{c}") } else { c.to_uppercase().to_string() });
    parts.collect::<String>().trim_start_matches('_').to_string()
}

/// The names and numbers are those of dehlbazin.h, which is read here as text: '#define DEHLBAZIN_BAD_NAME 18'.
fn header() {
    let path = concat!(env!("CARGO_MANIFEST_DIR"), "/../../include/dehlbazin.h");
    let text = done(std::fs::read_to_string(path));
    let value = |name: &str| {
        let mut words = text.lines().map(|line| line.split_whitespace().collect::<Vec<_>>());
        let line = words.find(|line| line.len() > 2 && line[..2] == ["#define", &format!("DEHLBAZIN_{name}")]);
        line.and_then(|line| line[2].parse::<u32>().ok())
    };
    for refusal in every() {
        same(value(&in_capitals(&format!("{refusal:?}"))), Some(refusal.number()));
    }
    for outcome in [Outcome::NoCommitter { writes: 0 }, Outcome::UsedUp { writes: 0 }] {
        same(value(&in_capitals(&format!("{outcome:?}"))), Some(outcome.number()));
    }
    for (place, number) in PLACES.into_iter().zip(1..) {
        same(value(&format!("PLACE_{}", in_capitals(&format!("{place:?}")))), Some(number));
        same(place as u32, number);
    }
    for (what, kind) in [("NAME", LOCKABLE_NAME), ("PACKED_TABLE", LOCKABLE_PACKED_TABLE)] {
        same(value(&format!("LOCKABLE_{what}")).map(u64::from), Some(kind));
    }
    same(value("DONE"), Some(Outcome::AllWritten { writes: 0 }.number()));
    same(every().len(), 27);
    same(value("REGION_SIZE"), Some(REGION_SIZE as u32));
    same(value("RECEIVER_SIZE"), Some(RECEIVER_SIZE as u32));
    same(value("PACKED_TEXT_MOST_BYTES"), Some(PACKED_TEXT_MOST_BYTES as u32));
    same(value("LIST_MOST_EDITS"), Some(EditList::MOST_EDITS as u32));
    let edits = value("LIST_EDIT_SIZE").zip(value("LIST_MOST_EDITS")).map_or(0, |(size, most)| size * most);
    same(value("LIST_HEADER_SIZE").map(|header| header + edits), Some(EditList::MOST_BYTES as u32));
    same(value("SETTINGS_MOST_COMMITTERS"), Some(Settings::MOST_COMMITTERS as u32));
    same(value("SETTINGS_MOST_BYTES"), Some(Settings::MOST_BYTES as u32));
    let part = |name| value(name).unwrap_or(999);
    same(part("VERSION_MAJOR") * 1_000_000 + part("VERSION_MINOR") * 1000 + part("VERSION_PATCH"), VERSION);
    same(format!("{}.{}.{}", part("VERSION_MAJOR"), part("VERSION_MINOR"), part("VERSION_PATCH")), CRATE_VERSION.to_string());
}

const CRATE_VERSION: &str = env!("CARGO_PKG_VERSION");

pub fn all() {
    header();
    refusals();
    without_names();
    others();
    places();
}
