//! Each of the fifteen calls of docs/SPEC.md, done and refused, through its typed form.

use crate::site::*;
use crate::tally::*;
use dehlbazin::*;

const NOBODYS: NameNumber = NameNumber(65535);
const NOT_THERE: Refusal = Refusal::NotRegistered { number: 65535 };

fn start() {
    let mut region = Box::new([0xff; REGION_SIZE]);
    for (setting, number) in [(Setting::Never, 0), (Setting::Normal, 1), (Setting::Always, 2)] {
        done(Store::start(&mut region, setting));
        same((region[0], region[5]), (1, number));
    }
    let mut longer = vec![0; REGION_SIZE + 1];
    refused(Store::start_in(&mut longer, Setting::Normal), Refusal::BadRegion);
    refused(Store::start_in(&mut longer[..REGION_SIZE - 1], Setting::Normal), Refusal::BadRegion);
    refused(Store::start_in(&mut [], Setting::Normal), Refusal::BadRegion);
    check(longer.iter().all(|&byte| byte == 0), "a refused start changes nothing");
    let mut store = done(Store::start_in(&mut longer[1..], Setting::Normal)); // it need not be aligned
    done(store.add_name("HEAD"));
    done(store.restart(Setting::Always));
    refused(store.name_bytes(HEAD), Refusal::NotRegistered { number: 0 });
}

fn open() {
    let mut region = site(&["HEAD"]);
    same(done(done(Store::open(&mut region)).name(HEAD)), "HEAD");
    same(done(done(View::open(&region)).name_bytes(HEAD)), b"HEAD");
    refused(View::open_in(&region[1..]), Refusal::BadRegion);
    refused(Store::open_in(&mut region[1..]), Refusal::BadRegion);
    refused(Store::open_in(&mut []), Refusal::BadRegion);
    done(Store::open_in(&mut region[..]));
    let kept = *done(Store::open(&mut region)).region();
    check(kept == *region, "a store shows its region");
    region[0] = 2;
    refused(Store::open(&mut region), Refusal::BadRegion);
    refused(View::open(&region), Refusal::BadRegion);
}

fn names() {
    let mut region = site(&[]);
    let range = region.as_ptr_range();
    let mut store = done(Store::open(&mut region));
    same(done(store.add_name("HEAD")), HEAD);
    same(done(store.add_name(b"refs/heads/aisle")), AISLE);
    same(done(store.add_name(String::from("HEAD"))), HEAD);
    let bytes = done(store.name_bytes(AISLE));
    same(bytes, b"refs/heads/aisle");
    let found = bytes.as_ptr_range();
    check(range.start < found.start && found.end < range.end, "they stand in the region");
    refused(store.name_bytes(NOBODYS), NOT_THERE);
    refused(store.name(NOBODYS), NOT_THERE);
    for bad in [&b""[..], b"head", b"refs/a..b", b"H\0", b"\xff", b"refs/", &[b'A'; 65], &[b'A'; 100_000]] {
        refused(store.add_name(bad), Refusal::BadName);
    }
    same(done(store.add_name([b'A'; 64])), NameNumber(2));
    for n in 3..256 {
        done(store.add_name(format!("refs/n/{n}")));
    }
    refused(store.add_name("refs/n/256"), Refusal::NamesFull);
    same(done(store.add_name("refs/n/255")), NameNumber(255));
}

fn loads() {
    let mut region = site(&["HEAD", "refs/heads/aisle"]);
    let mut store = done(Store::open(&mut region));
    let largest = object(u64::MAX);
    done(store.load_loose(AISLE, largest));
    same(store.read_name(AISLE), loose(largest));
    done(store.load_loose(HEAD, link(AISLE)));
    same(store.read_name(HEAD), loose(link(AISLE)));
    let three = ObjectNumber::new(3).unwrap();
    done(store.load_packed(AISLE, three));
    same(store.read_name(AISLE), loose(largest));
    let behind = Place::PackedBehindBroken;
    for (value, place) in [(Loose::Broken, behind), (Loose::None, Place::Packed), (None.into(), Place::Packed)] {
        done(store.load_loose(AISLE, value));
        same(store.read_name(AISLE), found(object(3), place));
    }
    done(store.load_packed(AISLE, None));
    same(store.read_name(AISLE), absent());
    refused(store.read_name(NOBODYS), NOT_THERE);
    refused(store.load_loose(NOBODYS, Loose::None), NOT_THERE);
    refused(store.load_loose(HEAD, link(NOBODYS)), NOT_THERE);
    refused(store.load_packed(NOBODYS, three), NOT_THERE);
    refused(store.load_packed(HEAD, three), Refusal::BadLoad);
    let shelf = done(store.add_name("refs/heads/aisle/shelf"));
    done(store.load_loose(AISLE, Loose::Broken));
    for beneath in [largest.into(), link(HEAD).into(), Loose::Broken] {
        refused(store.load_loose(shelf, beneath), Refusal::BadLoad);
    }
    done(store.load_loose(shelf, Loose::None));
    done(store.load_loose(AISLE, Loose::None));
    done(store.load_loose(shelf, largest));
    refused(store.load_loose(AISLE, largest), Refusal::BadLoad);
    done(store.prepare(&EditList::new(), MODE)).leave_prepared();
    refused(store.load_loose(AISLE, largest), Refusal::WrongState);
    refused(store.load_packed(AISLE, three), Refusal::WrongState);
}

/// The two of a packed table's text; there is more of them in texts.rs.
fn packed() {
    let mut region = site(&["HEAD", "refs/heads/aisle"]);
    let mut store = done(Store::open(&mut region));
    let mut buffer = [0; 64];
    same(store.write_packed(&mut buffer), Ok(0));
    done(store.load_packed(AISLE, ObjectNumber::new(0xabc).unwrap()));
    let line = b"0000000000000000000000000000000000000abc refs/heads/aisle\n";
    same(store.write_packed(&mut buffer), Ok(line.len()));
    same(&buffer[..line.len()], &line[..]);
    same(store.packed_text(), Ok(line.to_vec()));
    refused(store.write_packed(&mut buffer[..line.len() - 1]), Refusal::TextTooLong);
    done(store.load_packed(AISLE, None));
    same(store.read_packed(line), Ok(1));
    same(store.read_name(AISLE), found(object(0xabc), Place::Packed));
    refused(store.read_packed([&line[..], b"\n"].concat()), Refusal::MalformedLine { line: 2 });
    refused(store.read_packed(format!("{:040} refs/x\n", 0)), Refusal::BadLoad);
    refused(store.read_packed(format!("{:040} HEAD\n", 1)), Refusal::BadLoad);
    same(store.read_packed(""), Ok(0));
    same(store.read_name(AISLE), absent());
    done(store.prepare(&EditList::new(), MODE)).leave_prepared();
    same(store.write_packed(&mut buffer), Ok(0));
    refused(store.read_packed(line), Refusal::WrongState);
    same(store.rollback(), Ok(0));
    for n in 2..256 {
        done(store.add_name(format!("refs/n/{n}")));
    }
    refused(store.read_packed(format!("{:040} refs/n/256\n", 1)), Refusal::NamesFull);
    same(store.read_packed(format!("{:040} refs/n/255\n", 1)), Ok(1));
}

fn locks() {
    let mut region = site(&["HEAD"]);
    let mut store = done(Store::open(&mut region));
    let both = [Lockable::from(HEAD), Lockable::PackedTable];
    same(both[0], Lockable::Name(HEAD));
    for (what, other) in [(both[0], both[1]), (both[1], both[0])] {
        refused(store.lift_lock(what), Refusal::WrongLock);
        done(store.place_lock(what));
        refused(store.place_lock(what), Refusal::WrongLock);
        refused(store.lift_lock(other), Refusal::WrongLock); // it is still free
        done(store.place_lock(other));
        done(store.lift_lock(what));
        refused(store.place_lock(other), Refusal::WrongLock); // and now it is not
        done(store.lift_lock(other));
    }
    done(store.place_lock(HEAD));
    done(store.lift_lock(HEAD));
    refused(store.place_lock(NOBODYS), NOT_THERE);
    refused(store.lift_lock(NOBODYS), NOT_THERE);
}

/// A list is refused, and no byte is changed.
#[track_caller]
fn refuses(store: &mut Store<'_>, edits: &[RefEdit], refusal: Refusal) {
    let before = *store.region();
    refused(store.prepare(&list(edits), MODE), refusal);
    check(*store.region() == before, "a refusal changes no byte");
}

/// The refusals that what is there gives.
fn prepare_values() {
    use PreviousValue::*;
    let mut region = marked();
    let mut store = done(Store::open(&mut region));
    let tag = done(store.add_name("refs/tags/spring"));
    done(store.load_loose(AISLE, object(5)));
    let unknown = NameNumber(3);
    let no_such = Refusal::NotRegistered { number: 3 };
    refuses(&mut store, &[RefEdit::update(unknown, ANY, object(1))], no_such);
    refuses(&mut store, &[RefEdit::update(AISLE, ANY, link(unknown))], no_such);
    refuses(&mut store, &[RefEdit::delete(AISLE, MustExistAndMatch(link(unknown)))], no_such);
    let twice = [RefEdit::update(AISLE, ANY, object(6)), RefEdit::delete(AISLE, ANY)];
    refuses(&mut store, &twice, Refusal::MultipleEdits { name: AISLE });
    let nothing = Refusal::DeleteReferenceMustExist { name: tag };
    refuses(&mut store, &[RefEdit::delete(tag, MustExist)], nothing);
    let there = Refusal::MustNotExist { name: AISLE, actual: object(5), new: link(tag) };
    refuses(&mut store, &[RefEdit::update(AISLE, MustNotExist, link(tag))], there);
    let missing = Refusal::MustExist { name: tag, expected: None };
    refuses(&mut store, &[RefEdit::update(tag, MustExist, object(6))], missing);
    let missing = Refusal::MustExist { name: tag, expected: Some(link(HEAD)) };
    refuses(&mut store, &[RefEdit::update(tag, MustExistAndMatch(link(HEAD)), object(6))], missing);
    let other = Refusal::ReferenceOutOfDate { name: HEAD, expected: object(9), actual: link(AISLE) };
    refuses(&mut store, &[RefEdit::update(HEAD, ExistingMustMatch(object(9)), object(6))], other);
    let never = Refusal::DeleteMustNotExist { name: AISLE };
    refuses(&mut store, &[RefEdit::delete(AISLE, MustNotExist)], never);
}

/// The refusals that names above and beneath give, with the row's own name.
fn prepare_beneath() {
    let mut region = marked();
    let mut store = done(Store::open(&mut region));
    let shelf = done(store.add_name("refs/heads/aisle/shelf"));
    let both = [RefEdit::update(AISLE, ANY, object(6)), RefEdit::update(shelf, ANY, object(6))];
    refuses(&mut store, &both, Refusal::NameConflict { name: shelf });
    refuses(&mut store, &[both[1], both[0]], Refusal::NameConflict { name: AISLE });
    refuses(&mut store, &[both[1], both[0]].map(RefEdit::through_links), Refusal::NameConflict { name: AISLE });
    done(store.load_loose(shelf, object(5)));
    refuses(&mut store, &both[..1], Refusal::NameConflict { name: AISLE });
    let through = RefEdit::update(HEAD, ANY, object(6)).through_links();
    refuses(&mut store, &[through], Refusal::NameConflict { name: AISLE });
    done(store.load_loose(shelf, Loose::None));
    done(store.load_loose(AISLE, Loose::Broken));
    refuses(&mut store, &[RefEdit::delete(shelf, PreviousValue::MustExist)], Refusal::NameConflict { name: shelf });
    let remove = PackedRefs::DeletionsAndNonSymbolicUpdatesRemoveLooseSourceReference;
    // Direct rows write no loose value, and packed values play no part.
    same(done(done(store.prepare(&list(&both[..1]), remove)).commit(planner())).writes(), 3);
    same(done(done(store.prepare(&list(&both), remove)).commit(planner())).writes(), 2);
    same((store.read_name(AISLE), store.read_name(shelf)), (found(object(6), Place::Packed), found(object(6), Place::Packed)));
}

/// The refusals that locks, links and a prepared transaction give.
fn prepare_others() {
    let mut region = marked();
    let mut store = done(Store::open(&mut region));
    let through = RefEdit::update(HEAD, ANY, object(6)).through_links();
    done(store.place_lock(AISLE));
    refuses(&mut store, &[through], Refusal::LockAcquire { name: HEAD });
    done(store.lift_lock(AISLE));
    done(store.place_lock(Lockable::PackedTable));
    refuses(&mut store, &[RefEdit::update(AISLE, ANY, object(6))], Refusal::PackedTransactionAcquire);
    done(store.lift_lock(Lockable::PackedTable));
    done(store.load_loose(AISLE, link(HEAD)));
    refuses(&mut store, &[through], Refusal::ReferenceCycle);
    let remove = PackedRefs::DeletionsAndNonSymbolicUpdatesRemoveLooseSourceReference;
    let transaction = done(store.prepare(&list(&[RefEdit::update(AISLE, ANY, object(8))]), remove));
    same(transaction.row_count(), 1);
    transaction.leave_prepared();
    refuses(&mut store, &[], Refusal::WrongState);
}

fn log_full() {
    let mut region = full_log();
    let mut store = done(Store::open(&mut region));
    same(done(store.lines(NameNumber(31))).count(), 32);
    refuses(&mut store, &[RefEdit::update(NameNumber(0), ANY, object(99))], Refusal::LogFull);
    refused(store.read_line(NameNumber(0), 32), Refusal::NothingThere);
}

fn commit() {
    let mut region = marked();
    let mut store = done(Store::open(&mut region));
    refused(store.commit(planner()), Refusal::WrongState);
    let log = LogChange { message: Message(3), ..LogChange::default() };
    let edits = list(&[RefEdit::update_with(log, HEAD, ANY, object(7)).through_links()]);
    let prepare = |store: &mut Store<'_>, committer: Option<Committer>, allowance| {
        done(done(store.prepare(&edits, MODE)).commit_within(committer, allowance))
    };
    let outcome = prepare(&mut store, None, EVERY_WRITE);
    same((outcome, outcome.number()), (Outcome::NoCommitter { writes: 0 }, 16));
    let outcome = prepare(&mut store, Some(planner()), 2);
    same((outcome, outcome.number()), (Outcome::UsedUp { writes: 2 }, 17));
    check(!outcome.all_written(), "not all written");
    same(store.read_name(AISLE), absent());
    let outcome = prepare(&mut store, Some(planner()), 3);
    same((outcome, outcome.number(), outcome.all_written()), (Outcome::AllWritten { writes: 3 }, 0, true));
    same(store.read_name(AISLE), loose(object(7)));
    lines_are(&store, HEAD, &[[0, 7, 1, 3], [0, 7, 1, 3]]);
    refused(store.read_line(NOBODYS, 0), NOT_THERE);
    refused(store.read_line(HEAD, 2), Refusal::NothingThere);
    refused(store.read_line(HEAD, 1 << 32), Refusal::NothingThere);
}

fn rows() {
    let mut region = marked();
    let mut store = done(Store::open(&mut region));
    refused(store.read_row(0), Refusal::NothingThere);
    same(store.rollback(), Ok(0));
    done(store.load_loose(AISLE, object(5)));
    let expected = PreviousValue::MustExistAndMatch(object(5));
    let log = LogChange { mode: RefLog::AndReference, force_create_reflog: true, message: Message(513) };
    let edit = RefEdit::update_with(log, HEAD, expected, object(7)).through_links();
    let transaction = done(store.prepare(&list(&[edit]), MODE));
    let there = PreviousValue::MustExistAndMatch(link(AISLE));
    let only = LogChange { mode: RefLog::Only, ..log };
    let change = Change::Update { log: only, expected: there, new: object(7) };
    let leaf_previous = Some(ObjectNumber::new(5).unwrap());
    same(transaction.store().read_row(0), Ok(Row { name: HEAD, change, parent: None, leaf_previous, found: Place::Loose }));
    let change = Change::Update { log, expected, new: object(7) };
    let row = Row { name: AISLE, change, parent: Some(0), leaf_previous: None, found: Place::Loose };
    same(transaction.store().read_row(1), Ok(row));
    refused(transaction.store().read_row(2), Refusal::NothingThere);
    same(transaction.rollback(), Ok(2));
    let removal = RefEdit { change: Change::Delete { expected: ANY, log: RefLog::Only }, name: AISLE, deref: false };
    done(store.prepare(&list(&[removal]), MODE)).leave_prepared();
    same(done(store.read_row(0)).change, Change::Delete { expected, log: RefLog::Only });
    same(store.rollback(), Ok(1));
}

pub fn all() {
    start();
    open();
    names();
    loads();
    packed();
    locks();
    prepare_values();
    prepare_beneath();
    prepare_others();
    log_full();
    commit();
    rows();
}
