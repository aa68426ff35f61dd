//! Random settings, written and read back, and records that are damaged: through the crate, by the plain entries, and by the
//! record that is written here from docs/SETTINGS.md.

use crate::dice::Dice;
use crate::record::*;
use crate::settings::on_the_page;
use crate::tally::{check, same};
use dehlbazin::*;
use std::collections::BTreeMap;

/// How often each number was met.
pub type Met = BTreeMap<u32, u64>;

fn some_name(dice: &mut Dice) -> Vec<u8> {
    let size = match dice.below(60) {
        0 => 0,
        1 => 33,
        2..=5 => 32,
        _ => 1 + dice.below(31),
    };
    (0..size).map(|_| dice.any() as u8).collect()
}

/// Mostly good settings, and numbers that the crate's types hold: what they do not is in the checks of each call.
fn some_plan(dice: &mut Dice) -> Plan {
    let site = if dice.once_in(2) { 0 } else { dice.below(65536) };
    let mut plan = Plan::new(dice.below(3), 1 + dice.below(3), site);
    let count = if dice.once_in(8) { 14 + dice.below(4) } else { dice.below(9) };
    let mut last = 0;
    for _ in 0..count {
        let far = if dice.once_in(3) { 4000 } else { 3 };
        last = if dice.once_in(200) { last.max(1) } else { last + 1 + dice.below(far) };
        plan = plan.with(last.min(65535), &some_name(dice));
    }
    plan
}

/// Written in a version by all three ways, into a buffer that may be too short or too long.
fn write(plan: &Plan, version: u64, size: usize, met: &mut Met) {
    let wanted = written(version, plan).and_then(|record| if record.len() <= size { Ok(record) } else { Err(33) });
    let mut after = vec![0xa5; size];
    if let Ok(record) = &wanted {
        after[..record.len()].copy_from_slice(record);
    }
    let number = *wanted.as_ref().err().unwrap_or(&0);
    *met.entry(number).or_default() += 1;
    let mut buffer = vec![0xa5; size];
    let plainly = write_plainly(&mut buffer, version, plan);
    check(buffer == after, &format!("version {version} of {plan:?} by the plain entry, in {size} bytes"));
    same(plainly.0, number);
    buffer.fill(0xa5);
    let typed = settings_of(plan).and_then(|settings| settings.write(version_of(version), &mut buffer).map(<[u8]>::len));
    same(typed.map_or_else(Refusal::number, |_| 0), number);
    same(typed.ok(), wanted.as_ref().ok().map(Vec::len));
    check(buffer == after || typed.is_err(), &format!("version {version} of {plan:?} through the crate, in {size} bytes"));
    check(typed.is_ok() || buffer.iter().all(|&byte| byte == 0xa5), "a refusal changes no byte");
    if let Ok(record) = wanted {
        let view = SettingsView::read(&record, Version::Two).and_then(SettingsView::to_settings);
        same(view.map(|settings| plan_of(&settings)), Ok(plan.clone()));
    }
}

/// Read by all three ways, with each version known.
pub fn read_all(record: &[u8], met: &mut Met) {
    for known in [1, 2] {
        let wanted = read(record, known);
        *met.entry(wanted.0).or_default() += 1;
        let (typed, plainly) = (read_through(record, known), read_plainly(record, known));
        check(typed == wanted, &format!("{record:02x?}: typed {typed:?}, wanted {wanted:?}"));
        check(plainly == wanted, &format!("{record:02x?}: plain {plainly:?}, wanted {wanted:?}"));
        let places = if wanted.0 == 0 { wanted.1[3] + 1 } else { 1 };
        for place in 0..places {
            let wanted = read_committer(record, known, place);
            *met.entry(wanted.0).or_default() += 1;
            let (typed, plainly) = (read_committer_through(record, known, place), read_committer_plainly(record, known, place));
            check(typed == wanted, &format!("{record:02x?}, place {place}: typed {typed:?}, wanted {wanted:?}"));
            check(plainly == wanted, &format!("{record:02x?}, place {place}: plain {plainly:?}, wanted {wanted:?}"));
        }
    }
}

/// Each byte of the page's two examples with each other value, and all that they begin with; and one more byte behind.
fn every_byte(met: &mut Met) {
    for record in on_the_page() {
        for at in 0..record.len() {
            read_all(&record[..at], met);
            for other in (0..=255).filter(|&other| other != record[at]) {
                let mut damaged = record.clone();
                damaged[at] = other;
                read_all(&damaged, met);
            }
        }
        read_all(&[&record[..], &[0]].concat(), met);
    }
}

/// Cut out, doubled, turned over, counted up or down, or with another length to fit what was cut.
fn damage(dice: &mut Dice, record: &mut Vec<u8>) {
    if record.len() < 3 {
        return record.push(dice.any() as u8);
    }
    let at = dice.below(record.len() as u64) as usize;
    let to = (at + dice.below(6) as usize).min(record.len());
    match dice.below(7) {
        0 => record[at] ^= 1 << dice.below(8),
        1 => record[at] = record[at].wrapping_add(1),
        2 => record[at] = record[at].wrapping_sub(1),
        3 => record.truncate(at),
        4 => drop(record.drain(at..to)),
        5 => drop(record.splice(at..at, record[at..to].to_vec())),
        _ => record[0] = dice.below(4) as u8,
    }
    if dice.once_in(2) && record.len() >= 3 {
        let [high, low] = (record.len() as u16 - 3).to_be_bytes();
        (record[1], record[2]) = (high, low);
    }
}

pub fn all(count: u64, seed: u64) {
    let mut dice = Dice::new(seed);
    let (mut wrote, mut found) = (Met::new(), Met::new());
    every_byte(&mut found);
    for _ in 0..count {
        let plan = some_plan(&mut dice);
        let version = if plan.site != 0 && !dice.once_in(8) { 2 } else { 1 + dice.below(2) };
        let length = written(version, &plan).map_or(100, |record| record.len());
        let size = [length, length + 1, length - 1, 579, dice.below(700) as usize][dice.below(5) as usize];
        write(&plan, version, size, &mut wrote);
        let mut record = assembled(version, &plan); // bounds are the reader's to look at too
        read_all(&record, &mut found);
        for _ in 0..1 + dice.below(3) {
            damage(&mut dice, &mut record);
            read_all(&record, &mut found);
        }
    }
    println!("damaged: {count} settings, seed {seed}; written {wrote:?}, read {found:?}");
    for number in [0, 23, 33] {
        check(wrote.get(&number).map_or(false, |&met| met > count / 20), &format!("{number} was met by write"));
    }
    for number in [0, 22, 23, 24] {
        check(found.get(&number).map_or(false, |&met| met > count / 20), &format!("{number} was met by read"));
    }
}
