//! Random texts of a packed table, most of them damaged, read into stores of several kinds and written again: both ways, and by
//! what stands in lines.rs.

use crate::damaged::Met;
use crate::dice::Dice;
use crate::lines::*;
use crate::site::*;
use crate::tally::{check, done, same};
use crate::texts::{busy, of_the_page, on_the_page};
use dehlbazin::*;

/// Few and short, of bytes that sort beside '/', so that they meet; now and then one that is no name, or not packable.
fn some_name(dice: &mut Dice) -> Vec<u8> {
    const BYTES: &[u8] = b"-./0A_az";
    match dice.below(40) {
        0 => b"HEAD".to_vec(),
        1 => b"refs/bisect/a".to_vec(),
        2 => [b"refs/".to_vec(), vec![b'w'; 55 + dice.below(6) as usize]].concat(),
        3 => b"refs/heads/aisle-7".to_vec(),
        _ => {
            let size = 1 + dice.below(4);
            let mut name = b"refs/a".to_vec();
            name.extend((0..size).map(|_| BYTES[dice.below(8) as usize]));
            name
        }
    }
}

fn some_object(dice: &mut Dice) -> u64 {
    match dice.below(60) {
        0 => 0,
        1..=3 => u64::MAX,
        4..=20 => dice.any(),
        _ => 1 + dice.below(300),
    }
}

/// Mostly sorted lines with names that are names, with comments and peeled lines between.
fn some_text(dice: &mut Dice) -> Vec<u8> {
    let count = if dice.once_in(4) { 0 } else { dice.below(9) };
    let mut names: Vec<_> = (0..count).map(|_| some_name(dice)).collect();
    if !dice.once_in(10) {
        names.retain(|name| is_name(name) && name != b"HEAD");
        names.sort();
        names.dedup();
    }
    let mut text = if dice.once_in(2) { b"# pack-refs with: peeled fully-peeled sorted \n".to_vec() } else { Vec::new() };
    for name in names {
        text.extend(ref_line(some_object(dice), name));
        match dice.below(8) {
            0 => text.extend(format!("^{:040x}\n", dice.any()).bytes()),
            1 => text.extend(b"#\n"),
            _ => (),
        }
    }
    text
}

/// A byte changed, cut out, doubled, or put in; lines that change places, or one that comes twice; cut short.
fn damage(dice: &mut Dice, text: &mut Vec<u8>) {
    const BYTES: &[u8] = b"\n #^0fFg/.\r\0";
    let at = dice.below(text.len() as u64 + 1) as usize;
    let some = BYTES[dice.below(BYTES.len() as u64) as usize];
    let mut lines: Vec<Vec<u8>> = text.split_inclusive(|&byte| byte == b'\n').map(<[u8]>::to_vec).collect();
    match dice.below(7) {
        0 => text.truncate(at),
        1 => text.insert(at, some),
        2 => drop(text.splice(at.saturating_sub(1)..at, [some])),
        3 => drop(text.drain(at.saturating_sub(1)..at)),
        4 if lines.len() > 1 => {
            let line = dice.below(lines.len() as u64 - 1) as usize;
            lines.swap(line, line + 1);
            *text = lines.concat();
        }
        5 if !lines.is_empty() => {
            let line = dice.below(lines.len() as u64) as usize;
            lines.insert(line, lines[line].clone());
            *text = lines.concat();
        }
        _ => (),
    }
}

/// Stores to read into: with no names, with few, with all that a text is not about, with room for two names, and prepared.
fn stores() -> [Box<Region>; 5] {
    let mut nearly_full = site(&["HEAD", "refs/a/a"]);
    let mut store = done(Store::open(&mut nearly_full));
    for n in 2..254 {
        done(store.add_name(format!("refs/n/{n}")));
    }
    let mut prepared = of_the_page();
    done(done(Store::open(&mut prepared)).prepare(&EditList::new(), MODE)).leave_prepared();
    [site(&[]), of_the_page(), busy(), nearly_full, prepared]
}

/// Read; and where that is done, written: the text's own ref lines, and nothing else.
fn read_and_write(region: &Region, text: &[u8], met: &mut Met) {
    let mut after = Box::new(*region);
    let (number, first) = reads(&mut after, text);
    *met.entry(number).or_default() += 1;
    if number == 0 {
        let lines: Vec<_> = text.split_inclusive(|&byte| byte == b'\n').filter(|line| line.starts_with(b"0")).collect();
        same(lines.len() as u64, first);
        same(done(View::open(&after)).packed_text(), Ok(lines.concat()));
    }
}

/// All that the page's two texts begin with.
fn every_length(met: &mut Met) {
    let region = of_the_page();
    for text in on_the_page() {
        (0..=text.len()).for_each(|at| read_and_write(&region, &text[..at], met));
    }
}

/// Each byte of a text with each other value. It has lines of all three kinds, in few bytes.
fn every_byte(met: &mut Met) {
    let peeled = format!("^{:040x}\n", 7);
    let text = [b"#\n", &ref_line(7, "refs/a")[..], peeled.as_bytes(), &ref_line(8, "refs/b")].concat();
    let mut region = site(&["refs/b", "refs/c"]);
    done(done(Store::open(&mut region)).load_packed(AISLE, ObjectNumber::new(9).unwrap()));
    for at in 0..text.len() {
        for other in (0..=255).filter(|&other| other != text[at]) {
            let mut damaged = text.clone();
            damaged[at] = other;
            *met.entry(would_read(&region, &damaged).0).or_default() += 1;
        }
    }
}

pub fn all(count: u64, seed: u64) {
    let (mut dice, stores) = (Dice::new(seed), stores());
    let (mut cut, mut changed, mut read) = (Met::new(), Met::new(), Met::new());
    every_length(&mut cut);
    every_byte(&mut changed);
    for _ in 0..count {
        let mut text = some_text(&mut dice);
        let damages = dice.below(3);
        (0..damages).for_each(|_| damage(&mut dice, &mut text));
        let kind = if dice.once_in(20) { 4 } else { dice.below(4) };
        read_and_write(&stores[kind as usize], &text, &mut read);
    }
    println!("backups: {count} texts, seed {seed}; cut {cut:?}, changed {changed:?}, read {read:?}");
    same(cut.keys().copied().collect::<Vec<_>>(), vec![0, 27]);
    same(changed.keys().copied().collect::<Vec<_>>(), vec![0, 21, 27]);
    for number in [0, 15, 19, 21, 27] {
        check(read.get(&number).map_or(false, |&met| met > count / 100), &format!("{number} was met by reading"));
    }
}
