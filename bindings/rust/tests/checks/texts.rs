//! The two calls of a packed table's text, done and refused: both ways, and as docs/PACKED-TEXT.md says.

use crate::lines::*;
use crate::plain;
use crate::site::*;
use crate::step::bare;
use crate::tally::*;
use dehlbazin::*;

const PEELED: &[u8] = b"^8f3a52c0d1e6b7948f3a52c0d1e6b7948f3a52c0\n";

fn number(object: u64) -> ObjectNumber {
    ObjectNumber::new(object).unwrap()
}

/// The store of the page's whole example.
pub fn of_the_page() -> Box<Region> {
    let names = ["HEAD", "refs/heads/aisle-7", "refs/tags/2026-11", "refs/heads/aisle-10", "refs/heads/dock"];
    let mut region = site(&names);
    let mut store = done(Store::open(&mut region));
    done(store.load_loose(HEAD, link(AISLE)));
    done(store.load_loose(AISLE, object(12)));
    done(store.load_loose(NameNumber(4), object(9)));
    for (name, object) in [(1, 7), (2, 65_537), (3, 255)] {
        done(store.load_packed(NameNumber(name), number(object)));
    }
    region
}

/// What docs/PACKED-TEXT.md has under its whole example.
fn page() -> String {
    let path = concat!(env!("CARGO_MANIFEST_DIR"), "/../../docs/PACKED-TEXT.md");
    let text = done(std::fs::read_to_string(path));
    text.split("\n## ").find(|section| section.starts_with("A whole example")).unwrap_or("").to_string()
}

/// The two texts of the page: the one that the store has, and the one that git may have written.
pub fn on_the_page() -> Vec<Vec<u8>> {
    let line = |line: &str| line.strip_prefix("    ").map(|line| line.to_string() + "\n");
    let text = |block: &str| block.lines().filter_map(line).collect::<String>().into_bytes();
    page().split("\n\n").map(text).filter(|text| !text.is_empty()).collect()
}

/// The lines of the page's table: a line, the number of the line as which it stands, and the number of the refusal.
fn refused_on_the_page() -> Vec<(String, usize, u32)> {
    let first = |words: &str| words.split(|c: char| !c.is_ascii_digit()).next().and_then(|word| word.parse::<u32>().ok());
    let row = |row: &str| {
        let mut cells = row.strip_prefix("| `")?.split('`');
        let (line, rest) = (cells.next()?, cells.next()?);
        let (place, answer) = rest.split_once("as line ")?.1.split_once(" | ")?;
        Some((format!("{line}\n"), first(place)? as usize, first(answer)?))
    };
    page().lines().filter_map(row).collect()
}

fn example() {
    let (mut region, page) = (of_the_page(), on_the_page());
    same(page.iter().map(Vec::len).collect::<Vec<_>>(), vec![180, 267]);
    same(text_of(&region), page[0].clone());
    same(writes(&region, 180), 0);
    same(writes(&region, 179), 32);
    same(done(View::open(&region)).packed_text(), Ok(page[0].clone()));
    same(reads(&mut region, &page[1]), (0, 3));
    let store = done(Store::open(&mut region));
    same(store.read_name(AISLE), loose(object(12)));
    same(store.read_name(NameNumber(2)), found(object(65_537), Place::Packed));
    same(store.read_name(NameNumber(3)), found(object(255), Place::Packed));
    same(store.read_name(NameNumber(5)), found(object(3), Place::Packed));
    same(store.name(NameNumber(5)), Ok("refs/tags/2026-12"));
    let bare_lines: Vec<u8> = page[1].split_inclusive(|&b| b == b'\n').filter(|l| l[0] == b'0').flatten().copied().collect();
    same(store.packed_text(), Ok(bare_lines));
}

/// A line of the page's table stands in the place of one of git's text, or behind all of them.
fn example_refused() {
    let (region, page) = (of_the_page(), on_the_page());
    let table = refused_on_the_page();
    same(table.iter().map(|row| row.2).collect::<Vec<_>>(), vec![27, 27, 27, 21, 21]);
    for (line, place, wanted) in table {
        let mut lines: Vec<&[u8]> = page[1].split_inclusive(|&byte| byte == b'\n').collect();
        lines.resize(lines.len().max(place), b"");
        lines[place - 1] = line.as_bytes();
        same(would_read(&region, &lines.concat()), (wanted, if wanted == 27 { place as u64 } else { 0 }));
    }
}

/// What a good ref line, of object 7 and refs/a, is changed by: the last of the old text in it becomes the new one.
const CHANGES: [(&str, &str); 37] = [
    ("7 refs/a", "7"),
    ("7 refs/a", "7 "),
    ("7 ", "7  "),
    ("7 ", "7"),
    ("7 ", "7\t"),
    ("7 ", "7\0"),
    ("7 ", "77 "),
    ("07 ", "7 "),
    ("07", "g7"),
    ("07", "A7"),
    ("07", "F7"),
    ("07", "-7"),
    ("07", "+7"),
    ("07", " 7"),
    ("07", "x7"),
    ("refs/a", "refs/a "),
    ("refs/a", "refs/a\r"),
    ("refs/a", "refs/a\t"),
    ("refs/a", "refs/a\0"),
    ("refs/a", "refs/a b"),
    ("refs/a", " refs/a"),
    ("refs/a", "refs"),
    ("refs/a", "refs/"),
    ("refs/a", "refs//a"),
    ("refs/a", "refs/a/"),
    ("refs/a", "refs/.a"),
    ("refs/a", "refs/a."),
    ("refs/a", "refs/a..b"),
    ("refs/a", "refs/a.lock"),
    ("refs/a", "refs/a.lock/b"),
    ("refs/a", "refs/a~b"),
    ("refs/a", "refs/\u{e4}"),
    ("refs/a", "head"),
    ("refs/a", "HEAD2"),
    ("refs/a", "_HEAD"),
    ("refs/a", "#"),
    ("refs/a", "^"),
];

/// Lines, each alone: what is none of the grammar's.
fn malformed() {
    let zeros = "0".repeat(39);
    let good = format!("{zeros}7 refs/a");
    let mut lines: Vec<Vec<u8>> = ["", " ", "\r", "refs/a", "0", "7 refs/a"].map(|line| line.as_bytes().to_vec()).into();
    lines.extend([" 0", "^"].map(|first| [first, &good[1..]].concat().into_bytes()));
    for (old, new) in CHANGES {
        let at = good.rfind(old).unwrap();
        lines.push([&good[..at], new, &good[at + old.len()..]].concat().into_bytes());
    }
    lines.push(ref_line(7, [b"refs/".to_vec(), vec![b'a'; 60]].concat())[..106].to_vec());
    for place in 0..24 {
        lines.push(good.clone().into_bytes());
        lines.last_mut().unwrap()[place] = b'1'; // the number is above 2^64-1
    }
    for line in lines {
        alone_and_behind(&[&line[..], b"\n"].concat(), (27, 1));
    }
}

/// A line as a text of its own, behind a ref line and behind a comment, with what it answers alone. Of each the last line feed
/// may be missing, and then that line is malformed.
#[track_caller]
fn alone_and_behind(line: &[u8], (wanted, first): (u32, u64)) {
    let region = site(&["HEAD"]);
    let before = [&ref_line(1, "refs/-")[..], b"# \n"];
    for text in [line.to_vec(), [before[0], line].concat(), [before[1], line].concat()] {
        let behind = text.len() > line.len();
        let more = match wanted {
            27 => u64::from(behind),
            0 => u64::from(text.starts_with(before[0])),
            _ => 0,
        };
        same(would_read(&region, &text), (wanted, first + more));
        if let Some(cut) = text.strip_suffix(b"\n").filter(|cut| !cut.is_empty() && !cut.ends_with(b"\n")) {
            same(would_read(&region, cut), (27, 1 + u64::from(behind)));
        }
    }
}

/// Lines that are good, and values that cannot be packed.
fn good() {
    for object in [1, 9, 10, 15, 16, 255, 256, 1 << 32, 1 << 63, u64::MAX] {
        alone_and_behind(&ref_line(object, "refs/a"), (0, 1));
    }
    let longest = [b"refs/".to_vec(), vec![b'z'; 59]].concat();
    let names = [&b"refs/a"[..], b"refs/--", b"refs/_", b"refs/0", b"refs/a./b", b"refs/a.lockk", b"refs/bisect", &longest];
    for name in names.into_iter().chain([&b"refs/worktrees/a"[..]]) {
        alone_and_behind(&ref_line(7, name), (0, 1));
    }
    for comment in ["#\n", "# pack-refs with: peeled fully-peeled sorted \n", "#\r\n", "##^ 0\n", "#\0\u{ff}\n"] {
        alone_and_behind(comment.as_bytes(), (0, 0));
    }
    for name in ["HEAD", "A", "ORIG_HEAD", "refs/bisect/a", "refs/worktree/a", "refs/rewritten/a/b"] {
        let number = if name.starts_with("refs/") { 21 } else { 27 }; // behind refs/A one in capitals does not rise
        same(would_read(&site(&[]), &ref_line(7, name)), (21, 0));
        let behind = [ref_line(1, "refs/A"), ref_line(7, name)].concat();
        same(would_read(&site(&[]), &behind), (number, if number == 27 { 2 } else { 0 }));
    }
    alone_and_behind(&ref_line(0, "refs/a"), (21, 0));
}

/// What a peeled line may stand behind: a ref line, and nothing else. Its digits may have any value.
fn peeled() {
    let (one, two, comment) = (&ref_line(1, "refs/a")[..], &ref_line(2, "refs/b")[..], &b"#\n"[..]);
    let cases: [(&[&[u8]], (u32, u64)); 9] = [
        (&[PEELED], (27, 1)),
        (&[comment, PEELED], (27, 2)),
        (&[one, PEELED], (0, 1)),
        (&[one, PEELED, two], (0, 2)),
        (&[one, PEELED, two, PEELED], (0, 2)),
        (&[one, PEELED, PEELED], (27, 3)),
        (&[one, comment, PEELED], (27, 3)),
        (&[one, PEELED, comment, PEELED], (27, 4)),
        (&[comment, one, PEELED, comment, comment, two, PEELED, comment], (0, 2)),
    ];
    for (lines, wanted) in cases {
        same(would_read(&site(&[]), &lines.concat()), wanted);
    }
    for digits in ["0".repeat(40), "f".repeat(40), "0123456789abcdef".repeat(3)[..40].to_string()] {
        same(would_read(&site(&[]), &[one, format!("^{digits}\n").as_bytes()].concat()), (0, 1));
    }
    let digits = "0".repeat(39);
    for wrong in [format!("^{digits}\n"), format!("^{digits}00\n"), format!("^{digits}F\n"), format!("^{digits}g\n")] {
        same(would_read(&site(&[]), &[one, wrong.as_bytes()].concat()), (27, 2));
    }
    for wrong in [format!("^{digits}0 \n"), format!("^ {digits}\n"), format!("^{digits}0\r\n"), format!(" ^{digits}0\n")] {
        same(would_read(&site(&[]), &[one, wrong.as_bytes()].concat()), (27, 2));
    }
}

/// Names that sort by one byte each, in byte order. The first of them begins the others.
const RISING: [&str; 11] =
    ["refs/a", "refs/a-", "refs/a.b", "refs/a/b", "refs/a0", "refs/a9", "refs/aA", "refs/aZ", "refs/a_", "refs/aa", "refs/az"];

/// Every pair of names, in both orders and twice the same: a name stands behind that of the ref line before it, whatever lines
/// stand between.
fn rising() {
    for (i, first) in RISING.iter().enumerate() {
        for (j, second) in RISING.iter().enumerate() {
            for between in [&b""[..], b"#\n", PEELED] {
                let text = [&ref_line(7, first)[..], between, &ref_line(7, second)].concat();
                let line = if between.is_empty() { 2 } else { 3 };
                same(would_read(&site(&[]), &text), if i < j { (0, 2) } else { (27, line) });
            }
        }
    }
    // The line before counts, not the first one.
    let lines = [ref_line(1, "refs/a"), ref_line(1, "refs/c"), ref_line(1, "refs/b")];
    same(would_read(&site(&[]), &lines.concat()), (27, 3));
    // Whatever order the names were added in, the text has theirs.
    let mut backwards = RISING;
    backwards.reverse();
    let mut region = site(&backwards);
    let text: Vec<u8> = RISING.iter().zip(1..).flat_map(|(name, object)| ref_line(object, name)).collect();
    same(reads(&mut region, &text), (0, 11));
    same(done(View::open(&region)).packed_text(), Ok(text));
    same(name_of(&region, 0), b"refs/az");
}

/// The first line at fault decides, and of its faults 27, then 21, then 19. A prepared transaction comes before all.
fn order() {
    let (good, malformed) = (ref_line(1, "refs/a"), b"malformed\n".to_vec());
    let (no_object, unpackable) = (ref_line(0, "refs/b"), ref_line(7, "refs/bisect/b"));
    let new = ref_line(7, "refs/new");
    let mut held = site(&["HEAD"]);
    let mut store = done(Store::open(&mut held));
    done(store.add_name("refs/a"));
    for n in 2..256 {
        done(store.add_name(format!("refs/n/{n}")));
    }
    let zero_and_down = [ref_line(1, "refs/b"), ref_line(0, "refs/a")].concat(); // 27 before 21
    let new_and_down = [ref_line(1, "refs/n/99"), ref_line(7, "refs/b")].concat(); // 27 before 19
    let cases: [(&[&[u8]], (u32, u64)); 12] = [
        (&[&good, &malformed, &no_object, &new], (27, 2)),
        (&[&good, &no_object, &malformed, &new], (21, 0)),
        (&[&good, &unpackable, &malformed, &new], (21, 0)),
        (&[&good, &new, &malformed], (19, 0)),
        (&[&good, &new, &no_object], (19, 0)),
        (&[&no_object, &new], (21, 0)),
        (&[&unpackable], (21, 0)), // it is new, and 256 names are held
        (&[&ref_line(0, "refs/new")], (21, 0)),
        (&[&good, &ref_line(0, "refs/worktree/a")], (21, 0)),
        (&[&ref_line(1, "refs/a"), &zero_and_down], (19, 0)),
        (&[&new_and_down], (27, 2)),
        (&[&good, b"#\n", b"#\n", &ref_line(1, "refs/A")], (27, 4)),
    ];
    for (lines, wanted) in cases {
        same(would_read(&held, &lines.concat()), wanted);
    }
    same(would_read(&site(&[]), &zero_and_down), (27, 2));
    same(would_read(&held, &[&good[..], &new[..new.len() - 1]].concat()), (27, 2)); // without its line feed, before 19
    done(done(Store::open(&mut held)).prepare(&EditList::new(), MODE)).leave_prepared();
    for (lines, _) in cases {
        same(would_read(&held, &lines.concat()), (15, 0));
    }
    same(would_read(&held, b""), (15, 0));
    same(would_read(&held, &good), (15, 0));
}

/// A name of so many bytes, as the n-th of many.
fn name_of_size(n: usize, size: usize) -> String {
    format!("refs/{n:03}{}", "x".repeat(size - 8))
}

fn lines_of(names: std::ops::Range<usize>, size: usize) -> Vec<u8> {
    names.flat_map(|n| ref_line(n as u64 + 1, name_of_size(n, size))).collect()
}

/// 256 names and one more; with names that are held, which count too.
fn most_names() {
    for held in [0, 1, 2, 255, 256] {
        let names: Vec<_> = (0..held).map(|n| if n == 0 { "HEAD".to_string() } else { format!("refs/held/{n}") }).collect();
        let region = site(&names.iter().map(String::as_str).collect::<Vec<_>>());
        let room = 256 - held;
        same(would_read(&region, &lines_of(0..room, 12)), (0, room as u64));
        same(would_read(&region, &lines_of(0..room + 1, 12)), (19, 0));
        same(would_read(&region, &[lines_of(0..room + 1, 12), b"malformed\n".to_vec()].concat()), (19, 0));
        let down = [lines_of(0..room, 12), b"malformed\n".to_vec()].concat();
        same(would_read(&region, &down), (27, room as u64 + 1));
        // Those that are held need no room: the text has them all, and the new ones.
        let known: Vec<u8> = names.iter().skip(1).zip(1000..).flat_map(|(name, object)| ref_line(object, name)).collect();
        let mut sorted: Vec<&[u8]> = known.split_inclusive(|&byte| byte == b'\n').collect();
        sorted.sort_by(|one, other| one[41..].cmp(&other[41..]));
        let both = [lines_of(0..room, 12), sorted.concat()].concat();
        same(would_read(&region, &both), (0, (room + names.len().saturating_sub(1)) as u64));
    }
    let mut region = site(&[]);
    same(reads(&mut region, &lines_of(0..256, 12)), (0, 256));
    same(would_read(&region, &lines_of(0..257, 12)), (19, 0));
    same(reads(&mut region, b""), (0, 0)); // the names stay, and so does their count
    same(name_count(&region), 256);
    same(would_read(&region, &lines_of(256..257, 12)), (19, 0));
    same(reads(&mut region, &lines_of(100..101, 12)), (0, 1));
    same(done(View::open(&region)).packed_text(), Ok(lines_of(100..101, 12)));
}

/// The longest text there is, which fits exactly; and that of one name, and of none.
fn widest() {
    let (mut region, text) = (site(&[]), lines_of(0..256, 64));
    same(text.len(), PACKED_TEXT_MOST_BYTES);
    same(reads(&mut region, &text), (0, 256));
    same(done(View::open(&region)).packed_text(), Ok(text));
    for less in [0, 1, 2, 106, 107, 13_568, 27_030, 27_134, 27_135, 27_136] {
        same(writes(&region, PACKED_TEXT_MOST_BYTES - less), if less == 0 { 0 } else { 32 });
    }
    same(writes(&region, PACKED_TEXT_MOST_BYTES + 1), 0);
    same(would_read(&region, &lines_of(0..257, 64)), (19, 0));
    same(reads(&mut region, &lines_of(7..8, 64)), (0, 1));
    same((writes(&region, 106), writes(&region, 105)), (0, 32));
    same(reads(&mut region, b""), (0, 0));
    same((writes(&region, 0), writes(&region, 1)), (0, 0));
    same(would_read(&region, &vec![b'#'; 100_000]), (27, 1));
    same(would_read(&region, &[&vec![b'#'; 100_000][..], b"\n"].concat()), (0, 0));
    same(would_read(&region, &b"#\n".repeat(70_000)), (0, 0)); // more lines than 16 bits count
    same(would_read(&region, &[&b"#\n".repeat(70_000)[..], b"0\n"].concat()), (27, 70_001));
}

/// Every size of a buffer, from none to some more than the text has.
fn every_size() {
    for region in [site(&[]), site(&["HEAD"]), of_the_page(), busy()] {
        let length = text_of(&region).len();
        for size in 0..length + 4 {
            same(writes(&region, size), if size < length { 32 } else { 0 });
        }
    }
}

/// A store with all that a text is not about: links and broken values, foreign locks, and lines of a log.
pub fn busy() -> Box<Region> {
    let mut region = of_the_page();
    let mut store = done(Store::open(&mut region));
    done(store.load_loose(NameNumber(3), Loose::Broken));
    let edits = list(&[RefEdit::update(HEAD, ANY, object(13)).through_links()]);
    same(done(done(store.prepare(&edits, MODE)).commit(planner())).writes(), 3);
    for what in [Lockable::PackedTable, AISLE.into(), NameNumber(2).into()] {
        done(store.place_lock(what));
    }
    region
}

/// Nothing but names and packed values is changed, and no lock is looked at.
fn others_stay() {
    let page = on_the_page();
    for text in [&page[0][..], &page[1], b"", &ref_line(1, "refs/heads/dock")] {
        let (mut plain_one, mut busy_one) = (of_the_page(), busy());
        same(reads(&mut busy_one, text), reads(&mut plain_one, text));
        same(text_of(&busy_one), text_of(&plain_one));
        let store = done(Store::open(&mut busy_one));
        same(store.read_name(HEAD), loose(link(AISLE)));
        same(store.read_name(AISLE), loose(object(13)));
        lines_are(&store, HEAD, &[[12, 13, 1, 0]]);
        lines_are(&store, AISLE, &[[12, 13, 1, 0]]);
        refused(done(Store::open(&mut busy_one)).place_lock(Lockable::PackedTable), Refusal::WrongLock);
    }
}

/// A text that was written and is read again changes nothing at all; in another store it makes the same table.
fn there_and_back() {
    for region in [site(&[]), of_the_page(), busy()] {
        let text = done(done(View::open(&region)).packed_text());
        let mut back = region.clone();
        let refs = text.iter().filter(|&&byte| byte == b'\n').count() as u64;
        same(reads(&mut back, &text), (0, refs));
        check(back == region, "read into its own store it changes nothing");
        for mut other in [site(&[]), busy(), site(&["refs/z", "refs/tags/2026-11"])] {
            same(reads(&mut other, &text), (0, refs));
            same(done(View::open(&other)).packed_text().as_ref(), Ok(&text));
        }
    }
}

/// Writing works while a transaction is prepared, and gives what is packed then: what it will pack is not.
fn meanwhile() {
    let mut region = of_the_page();
    let mut store = done(Store::open(&mut region));
    let text = done(store.packed_text());
    let remove = PackedRefs::DeletionsAndNonSymbolicUpdatesRemoveLooseSourceReference;
    let edits = list(&[RefEdit::update(AISLE, ANY, object(77)), RefEdit::delete(NameNumber(2), ANY)]);
    let transaction = done(store.prepare(&edits, remove));
    same(transaction.store().packed_text().as_ref(), Ok(&text));
    let mut buffer = vec![0; text.len()];
    same(transaction.store().write_packed(&mut buffer), Ok(text.len()));
    same(&buffer, &text);
    refused(transaction.store().view().write_packed(&mut buffer[1..]), Refusal::TextTooLong);
    transaction.leave_prepared();
    refused(store.read_packed(&text), Refusal::WrongState);
    refused(store.read_packed("malformed"), Refusal::WrongState);
    same((writes(store.region(), text.len()), writes(store.region(), text.len() - 1)), (0, 32));
    same(would_read(store.region(), &text), (15, 0));
    same(done(store.commit(planner())).writes(), 3);
    let after = [ref_line(255, "refs/heads/aisle-10"), ref_line(77, "refs/heads/aisle-7")].concat();
    same(store.packed_text(), Ok(after));
    same(store.read_packed(&text), Ok(3));
}

/// Whatever else is wrong, a region and an answer record of the wrong size or with wrong bytes come first: with 1, and nothing
/// is written.
fn bad_regions() {
    let (good, text) = (of_the_page(), on_the_page()[0].clone());
    let mut spoilt = good.clone();
    spoilt[0] = 2;
    let longer = [&good[..], &[0]].concat();
    for bytes in [&spoilt[..], &good[1..], &longer, &[]] {
        for text in [&text[..], b"", b"malformed"] {
            for read in [read_plainly, read_through] {
                let mut copy = bytes.to_vec();
                same(read(&mut copy, text), bare(1));
                check(copy == bytes, "a region that is no good one stays as it is");
            }
        }
        for write in [write_plainly, write_through] {
            let mut buffer = [0xa5; 200];
            same(write(bytes, &mut buffer), bare(1));
            same(write(bytes, &mut []), bare(1));
            check(buffer == [0xa5; 200], "no text of a region that is no good one");
        }
    }
    for size in [0, 8, 127, 129, 256] {
        let (mut answer, mut buffer, mut copy) = (vec![0xa5; size], [0xa5; 200], good.clone());
        same(plain::write_packed(&good[..], &mut buffer, &mut answer), 1);
        same(plain::write_packed(&good[..], &mut buffer[..1], &mut answer), 1);
        same(plain::read_packed(&mut copy[..], b"", &mut answer), 1);
        same(plain::read_packed(&mut copy[..], b"malformed", &mut answer), 1);
        check(answer.iter().chain(&buffer).all(|&byte| byte == 0xa5), "nothing at all is written");
        check(copy == good, "nor is the region changed");
    }
}

/// The crate's own forms: any bytes are a text, and the refusal has the line.
fn typed() {
    let mut region = site(&[]);
    let mut store = done(Store::open(&mut region));
    let text = String::from_utf8(ref_line(5, "refs/a")).unwrap();
    same(store.read_packed(&text), Ok(1));
    same(store.read_packed(text.clone()), Ok(1));
    same(store.read_packed(text.as_bytes()), Ok(1));
    same(store.read_packed(b""), Ok(0));
    refused(store.read_packed("#\n#\n\n"), Refusal::MalformedLine { line: 3 });
    refused(store.read_packed(ref_line(0, "refs/a")), Refusal::BadLoad);
    refused(store.read_packed(lines_of(0..257, 12)), Refusal::NamesFull);
    same(store.write_packed(&mut []), Ok(0));
    same(store.read_packed(&text), Ok(1));
    refused(store.write_packed(&mut []), Refusal::TextTooLong);
    refused(store.view().write_packed(&mut [0; 47]), Refusal::TextTooLong);
    let mut longer = [b'.'; 60];
    same(store.write_packed(&mut longer[1..]), Ok(48)); // it need not be aligned
    same(longer.to_vec(), [b".", text.as_bytes(), &[b'.'; 11]].concat());
}

pub fn all() {
    example();
    example_refused();
    malformed();
    good();
    peeled();
    rising();
    order();
    most_names();
    widest();
    every_size();
    others_stay();
    there_and_back();
    meanwhile();
    bad_regions();
    typed();
}
