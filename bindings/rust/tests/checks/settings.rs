//! Each of the four calls of a settings record, done and refused, through its typed form; and by the plain entry where the
//! types hold no such number.

use crate::damaged::{read_all, Met};
use crate::plain;
use crate::record::*;
use crate::site::*;
use crate::step::{bare, mode_of, setting_of};
use crate::tally::*;
use dehlbazin::*;

/// The settings of the page's examples, of a site.
pub fn example(site: u64) -> Plan {
    Plan::new(1, 1, site).with(12, b"planner").with(40, b"night shift")
}

/// The two whole examples of docs/SETTINGS.md, from the page itself: what stands left in its indented lines.
pub fn on_the_page() -> Vec<Vec<u8>> {
    let path = concat!(env!("CARGO_MANIFEST_DIR"), "/../../docs/SETTINGS.md");
    let text = done(std::fs::read_to_string(path));
    let section = text.split("\n## ").find(|section| section.starts_with("A whole example of each version")).unwrap_or("");
    let byte = |word: &str| u8::from_str_radix(word, 16).ok().filter(|_| word.len() == 2);
    let bytes = |block: &str| {
        let lines = block.lines().filter_map(|line| line.strip_prefix("    ")?.split("   ").next());
        lines.flat_map(|line| line.split(' ').filter_map(byte).collect::<Vec<_>>()).collect::<Vec<_>>()
    };
    section.split("\n\n").map(bytes).filter(|bytes| !bytes.is_empty()).collect()
}

fn committer(number: u64) -> Committer {
    Committer::new(number).unwrap()
}

fn refusal_of(number: u32) -> Refusal {
    match number {
        23 => Refusal::MalformedRecord,
        24 => Refusal::UnknownVersion,
        _ => Refusal::ShortBuffer,
    }
}

fn examples() {
    let page = on_the_page();
    same(page.iter().map(Vec::len).collect::<Vec<_>>(), vec![38, 43]);
    for (version, site) in [(1, 0), (2, 7)] {
        let mut buffer = [0; Settings::MOST_BYTES];
        let settings = done(settings_of(&example(site)));
        let record = done(settings.write(version_of(version), &mut buffer)).to_vec();
        same(&record, &page[version as usize - 1]);
        same(written(version, &example(site)).as_ref(), Ok(&record));
        let view = done(SettingsView::read(&record, Version::Two));
        same((view.log(), view.mode(), view.site()), (Setting::Normal, MODE, Site(site as u16)));
        same((view.committer_count(), view.record()), (2, &record[..]));
        let planner = NamedCommitter { number: committer(12), name: b"planner" };
        same(view.read_committer(0), Ok(planner));
        let shift = NamedCommitter { number: committer(40), name: b"night shift" };
        same(view.read_committer(1), Ok(shift));
        same(view.committers().collect::<Vec<_>>(), vec![planner, shift]);
        same(settings.committers().collect::<Vec<_>>(), vec![planner, shift]);
        let names: Vec<_> = view.committers().map(|one| one.name.as_ptr() as usize - record.as_ptr() as usize).collect();
        same(names, vec![17, 27]); // they stand in the record
        same(view.to_settings(), Ok(settings));
    }
}

/// Places that are not there; and a walk that came to its end stays there.
fn places() {
    let record = written(2, &example(7)).unwrap();
    let view = done(SettingsView::read(&record, Version::Two));
    for place in [2, 16, 65536, 1 << 32, (1 << 32) + 1, u64::MAX] {
        refused(view.read_committer(place), Refusal::NothingThere);
        same(read_committer_plainly(&record, 2, place), bare(22));
    }
    let mut walk = view.committers();
    same((walk.by_ref().count(), walk.next()), (2, None));
    let nobody = written(1, &Plan::new(0, 3, 0)).unwrap();
    let view = done(SettingsView::read(&nobody, Version::One));
    same((view.committers().count(), view.committer_count()), (0, 0));
    refused(view.read_committer(0), Refusal::NothingThere);
}

/// Which versions a reader knows. An older one refuses a newer record by its version, whatever else is in it.
fn versions() {
    let page = on_the_page();
    let one = done(SettingsView::read(&page[0], Version::One));
    same(one.to_settings(), done(SettingsView::read(&page[0], Version::Two)).to_settings());
    same(one.site(), Site(0));
    refused(SettingsView::read(&page[1], Version::One), Refusal::UnknownVersion);
    refused(SettingsView::read(&[2], Version::One), Refusal::UnknownVersion);
    refused(SettingsView::read(&[2], Version::Two), Refusal::MalformedRecord);
    for known in [Version::One, Version::Two] {
        refused(SettingsView::read(&[], known), Refusal::MalformedRecord);
        for byte in [0, 3, 255] {
            refused(SettingsView::read(&[byte], known), Refusal::UnknownVersion);
            refused(SettingsView::read(&[&[byte], &page[0][1..]].concat(), known), Refusal::UnknownVersion);
        }
    }
    for known in [0, 3, 257, 258, (1 << 32) + 1, u64::MAX] {
        for record in [&page[0][..], &page[1], &[], &[9]] {
            same(read_plainly(record, known), bare(24));
            same(read_committer_plainly(record, known, 0), bare(24));
        }
        same(write_plainly(&mut [0; 579], known, &example(0)), bare(24));
    }
    check(Version::One < Version::Two, "a later version is greater");
}

/// Written by the plain entry, and by the crate where its types hold these settings: nothing else than the record is changed.
/// Or it is refused, and nothing is.
#[track_caller]
fn writes(version: u64, plan: &Plan) {
    let wanted = written(version, plan);
    let mut buffer = [0xa5; 600];
    let found = write_plainly(&mut buffer, version, plan);
    let length = wanted.as_ref().map_or(0, Vec::len);
    same(&buffer[..length], wanted.as_deref().unwrap_or(&[]));
    check(buffer[length..].iter().all(|&byte| byte == 0xa5), "bytes past the record are kept");
    same((found.0, found.1[0]), (*wanted.as_ref().err().unwrap_or(&0), length as u64));
    if let Some(settings) = settings_of(plan).ok().filter(|settings| plan_of(settings) == *plan) {
        buffer = [0x5a; 600];
        let typed = settings.write(version_of(version), &mut buffer).map(<[u8]>::to_vec);
        same(typed, wanted.map_err(refusal_of));
        check(buffer[length..].iter().all(|&byte| byte == 0x5a), "bytes past the record are kept by the crate");
    }
}

/// 0, 1, 16 and 17 committers; names of 0, 1, 32 and 33 bytes; the least number and the largest.
fn bounds() {
    let many = |count: u64| (0..count).fold(Plan::new(2, 3, 0), |plan, n| plan.with(n + 1, b"x"));
    for version in [1, 2] {
        for (count, number) in [(0, 0), (1, 0), (16, 0), (17, 23)] {
            writes(version, &many(count));
            same(written(version, &many(count)).err().unwrap_or(0), number);
        }
        for (size, number) in [(0, 23), (1, 0), (32, 0), (33, 23), (255, 23), (256, 23), (257, 23)] {
            let plan = Plan::new(0, 2, 0).with(5, &vec![b'n'; size]);
            writes(version, &plan);
            writes(version, &plan.with(6, b"behind it"));
            writes(version, &Plan::new(0, 2, 0).with(4, b"before it").with(5, &vec![0; size]));
            same(written(version, &Plan::new(0, 2, 0).with(5, &vec![b'n'; size])).err().unwrap_or(0), number);
        }
        writes(version, &Plan::new(0, 1, 0).with(1, &[0]).with(65535, &[255; 32]));
    }
    let largest = (0..16).fold(Plan::new(2, 3, 65535), |plan, n| plan.with(65520 + n, &[n as u8; 32]));
    writes(2, &largest);
    same(written(2, &largest).map(|record| record.len()), Ok(Settings::MOST_BYTES));
    let mut settings = done(settings_of(&largest));
    let before = settings.clone();
    refused(settings.push(committer(65535), "one more"), Refusal::MalformedRecord);
    same(&settings, &before);
    same(before.committers().len(), Settings::MOST_COMMITTERS);
    refused(Committer::new(0), Refusal::Malformed);
    same(done(Committer::new(65535)).get(), 65535);
    same((done(Site::new(0)).get(), done(Site::new(65535)).get()), (0, 65535));
}

/// The same bounds, in records that are whole but for one of them.
fn bounds_read() {
    let many = |count: u64| (0..count).fold(Plan::new(2, 3, 0), |plan, n| plan.with(n + 1, b"x"));
    let named = |size: usize| Plan::new(1, 1, 0).with(5, &vec![b'n'; size]).with(6, b"behind it");
    let two = |first: u64, second: u64| Plan::new(1, 1, 0).with(first, b"one").with(second, b"two");
    let good = [many(0), many(1), many(16), named(1), named(32), two(1, 65535), two(255, 256), two(65534, 65535)];
    let bad = [many(17), many(18), named(0), named(33), named(255), two(0, 1), two(7, 7), two(8, 7), two(256, 255)];
    let numbers = [Plan::new(3, 1, 0), Plan::new(255, 1, 0), Plan::new(1, 0, 0), Plan::new(1, 4, 0), Plan::new(1, 255, 0)];
    let bad: Vec<_> = bad.into_iter().chain(numbers).collect();
    for version in [1, 2] {
        for (plans, number) in [(&good[..], 0), (&bad, 23)] {
            for plan in plans {
                same(read_plainly(&assembled(version, plan), 2).0, number);
                read_all(&assembled(version, plan), &mut Met::new());
            }
        }
    }
    for site in [0, 1, 255, 256, 65535] {
        same(read_plainly(&assembled(2, &Plan::new(1, 1, site)), 2), (0, places_of([1, 1, site, 0])));
    }
}

fn places_of(first: [u64; 4]) -> [u64; 16] {
    let mut places = [0; 16];
    places[..4].copy_from_slice(&first);
    places
}

/// Every number is taken whole: 65536 + k is not k.
fn whole_numbers() {
    for wrong in [1 << 16, 1 << 32, 1 << 63] {
        for version in [1, 2] {
            for low in [0, 1, 2] {
                writes(version, &Plan { log: wrong + low, ..example(0) });
                writes(version, &Plan { mode: wrong + low, ..example(0) });
                writes(version, &Plan { site: wrong + low, ..example(0) });
                writes(version, &Plan { numbers: vec![12, wrong + 40 + low], ..example(0) });
                writes(version, &Plan { lengths: vec![7, wrong + 11], ..example(0) });
                same(write_plainly(&mut [0; 600], version + wrong, &example(0)), bare(24));
                refused(Site::new(wrong + low), Refusal::MalformedRecord);
            }
        }
    }
    for version in [1, 2] {
        for (log, mode) in [(3, 1), (255, 1), (256, 1), (1, 0), (1, 4), (1, 257), (u64::MAX, u64::MAX)] {
            writes(version, &Plan { log, mode, ..example(0) });
        }
        for (log, mode, site) in [(0, 1, 0), (1, 2, 0), (2, 3, 0), (1, 1, 1), (1, 1, 65535), (1, 1, 65536)] {
            writes(version, &Plan { log, mode, site, ..example(0) });
        }
    }
}

/// The three lists fit together, and the numbers rise.
fn lists() {
    for version in [1, 2] {
        for numbers in [vec![], vec![12], vec![12, 40, 41], vec![40, 12], vec![12, 12], vec![0, 40], vec![12, 65536]] {
            writes_plainly(version, &Plan { numbers, ..example(0) });
        }
        let wraps = [vec![7, 11, 1], vec![7], vec![7, 10], vec![7, 12], vec![18, 0], vec![u64::MAX, 19], vec![1 << 63; 2]];
        for lengths in wraps.into_iter().chain([vec![], vec![7; 17], vec![1; 18]]) {
            writes_plainly(version, &Plan { lengths, ..example(0) });
        }
        writes_plainly(version, &Plan { names: vec![], ..example(0) });
        writes_plainly(version, &Plan { names: vec![1; 1000], ..example(0) });
        let nobody = Plan { numbers: vec![], lengths: vec![], ..example(0) };
        writes_plainly(version, &nobody);
        writes_plainly(version, &Plan { names: vec![], ..nobody });
        writes_plainly(version, &Plan { lengths: vec![9, 9], ..example(0) }); // other names, of as many bytes
    }
}

/// By the plain entry alone: the crate keeps each name with its length.
#[track_caller]
fn writes_plainly(version: u64, plan: &Plan) {
    let mut buffer = [0xa5; 600];
    let found = write_plainly(&mut buffer, version, plan);
    match written(version, plan) {
        Ok(record) => same((found.0, found.1[0], &buffer[..record.len()]), (0, record.len() as u64, &record[..])),
        Err(number) => {
            same(found, bare(number));
            check(buffer.iter().all(|&byte| byte == 0xa5), "a refusal changes no byte");
        }
    }
}

/// Every buffer that is too short, one that fits, and longer ones.
fn buffers() {
    for (version, plan) in [(1, example(0)), (2, example(7)), (1, Plan::new(0, 1, 0)), (2, Plan::new(0, 1, 0))] {
        let record = written(version, &plan).unwrap();
        let settings = done(settings_of(&plan));
        for size in 0..record.len() {
            let mut buffer = vec![0xa5; size];
            refused(settings.write(version_of(version), &mut buffer), Refusal::ShortBuffer);
            same(write_plainly(&mut buffer, version, &plan), bare(33));
            check(buffer.iter().all(|&byte| byte == 0xa5), "a buffer that is too short stays as it was");
        }
        for more in [0, 1, 2, 1000] {
            let mut buffer = vec![0xa5; record.len() + more];
            same(settings.write(version_of(version), &mut buffer), Ok(&record[..]));
            same(&buffer[..record.len()], &record[..]);
            check(buffer[record.len()..].iter().all(|&byte| byte == 0xa5), "what is past it stays");
            buffer.push(0);
            let shifted = done(settings.write(version_of(version), &mut buffer[1..])); // it need not be aligned
            same(done(SettingsView::read(shifted, Version::Two)).to_settings().as_ref(), Ok(&settings));
        }
    }
}

/// Where several refusals apply: 1, 24, 23, and then 22 or 33.
fn order() {
    let good = written(2, &example(7)).unwrap();
    for size in [0, 8, 127, 129, 256] {
        let mut answer = vec![0xa5; size];
        same(plain::read_settings(&good, 2, &mut answer), 1);
        same(plain::read_settings(&[], 9, &mut answer), 1);
        same(plain::read_committer(&good, 2, 9, &mut answer), 1);
        same(plain::read_committer(&[], 9, 9, &mut answer), 1);
        let mut buffer = [0xa5; 100];
        same(plain::write_settings(&mut buffer, [2, 1, 1, 7], &[], &[], &[], &mut answer), 1);
        same(plain::write_settings(&mut buffer[..1], [9, 9, 9, 9], &[0], &[], &[], &mut answer), 1);
        let mut region = Box::new([0xa5; REGION_SIZE]);
        same(plain::start_with_settings(&mut region[..], &good, &mut answer), 1);
        same(plain::start_with_settings(&mut region[..], &[9], &mut answer), 1);
        check(answer.iter().chain(&buffer).chain(&region[..]).all(|&byte| byte == 0xa5), "nothing at all is written");
    }
    same(read_plainly(&[3], 2), bare(24)); // and no record
    same(read_plainly(&[2], 1), bare(24));
    same(read_committer_plainly(&[3], 2, 99), bare(24));
    same(read_committer_plainly(&good[..42], 2, 99), bare(23)); // and no such place
    same(read_committer_plainly(&good, 2, 99), bare(22));
    let wrong = Plan { log: 9, ..example(7) };
    same(write_plainly(&mut [], 3, &wrong), bare(24)); // and out of bounds, and too short
    same(write_plainly(&mut [], 2, &wrong), bare(23)); // and too short
    same(write_plainly(&mut [], 1, &example(7)), bare(23));
    same(write_plainly(&mut [], 2, &example(7)), bare(33));
    refused(done(settings_of(&example(7))).write(Version::One, &mut []), Refusal::MalformedRecord);
    refused(done(settings_of(&example(7))).write(Version::Two, &mut []), Refusal::ShortBuffer);
}

/// A store that is started with a record is one that is started with its log setting.
fn start() {
    for (log, version) in [(0, 1), (1, 1), (2, 1), (0, 2), (1, 2), (2, 2)] {
        let site = if version == 1 { 0 } else { 7 };
        let record = written(version, &Plan { log, mode: 3 - log, ..example(site) }).unwrap();
        let (mut region, mut other) = (Box::new([0xff; REGION_SIZE]), Box::new([0; REGION_SIZE]));
        done(Store::start(&mut other, setting_of(log)));
        let mut store = done(Store::start_with_settings(&mut region, &record));
        check(*store.region() == *other, "started with a record");
        done(store.add_name("HEAD"));
        done(store.prepare(&EditList::new(), mode_of(1))).leave_prepared();
        done(store.restart_with_settings(&record));
        check(*store.region() == *other, "and started anew");
        let mut longer = vec![0x5a; REGION_SIZE + 1];
        check(*done(Store::start_with_settings_in(&mut longer[1..], &record)).region() == *other, "and in bytes");
        let mut answer = [0xaa; 128];
        let mut plainly = Box::new([0xff; REGION_SIZE]);
        same(plain::start_with_settings(&mut plainly[..], &record, &mut answer), 0);
        check(plainly == other && answer == [0; 128], "and by the plain entry");
    }
}

/// A start that is refused changes no byte, and the size of the region is looked at first.
fn start_refused() {
    let good = written(2, &example(7)).unwrap();
    let mut region = marked();
    let before = *region;
    let unknown = [&[3], &good[1..]].concat();
    let cases =
        [(&unknown[..], Refusal::UnknownVersion), (&[], Refusal::MalformedRecord), (&good[1..], Refusal::UnknownVersion)];
    for (record, refusal) in cases.into_iter().chain([(&good[..42], Refusal::MalformedRecord)]) {
        refused(Store::start_with_settings(&mut region, record), refusal);
        check(*region == before, "a refused start changes nothing");
        refused(Store::start_with_settings_in(&mut region[..], record), refusal);
        check(*region == before, "a refused start in bytes changes nothing");
        refused(done(Store::open(&mut region)).restart_with_settings(record), refusal);
        check(*region == before, "a refused start anew changes nothing");
        let mut answer = [0xaa; 128];
        same(plain::start_with_settings(&mut region[..], record, &mut answer), refusal.number());
        check(*region == before && answer == [0; 128], "nor does the plain entry");
        same(read(record, 2).0, refusal.number());
    }
    for record in [&good[..], &unknown, &[]] {
        for size in [0, 1, REGION_SIZE - 1, REGION_SIZE + 1] {
            let mut bytes = vec![0xa5; size];
            refused(Store::start_with_settings_in(&mut bytes, record), Refusal::BadRegion);
            let mut answer = [0xaa; 128];
            same(plain::start_with_settings(&mut bytes, record, &mut answer), 1);
            check(answer == [0; 128], "an answer without places");
            check(bytes.iter().all(|&byte| byte == 0xa5), "a region of another size stays as it was");
        }
    }
}

/// A committer of a record commits, and stands in the log.
fn committing() {
    let record = written(2, &example(7)).unwrap();
    let view = done(SettingsView::read(&record, Version::Two));
    let mut region = Box::new([0; REGION_SIZE]);
    let mut store = done(Store::start_with_settings(&mut region, view.record()));
    let aisle = done(store.add_name("refs/heads/aisle"));
    let shift = done(view.read_committer(1)).number;
    let edits = list(&[RefEdit::update(aisle, ANY, object(7))]);
    same(done(done(store.prepare(&edits, view.mode())).commit(shift)).writes(), 2);
    lines_are(&store, aisle, &[[0, 7, 40, 0]]);
}

pub fn all() {
    examples();
    places();
    versions();
    bounds();
    bounds_read();
    whole_numbers();
    lists();
    buffers();
    order();
    start();
    start_refused();
    committing();
}
