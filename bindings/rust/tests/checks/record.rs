//! Settings as numbers and bytes, and their record, written here from docs/SETTINGS.md alone: so that what the archive writes
//! and reads is compared with something that does not go through it. The same is made by the plain entries, and through the
//! crate.

use crate::plain::{self, place};
use crate::step::{mode_of, reply, setting_of, Reply};
use dehlbazin::*;

/// What the plain call takes. A name is not kept apart from the others, so that lengths can be wrong.
#[derive(Clone, Debug, Default, PartialEq, Eq)]
pub struct Plan {
    pub log: u64,
    pub mode: u64,
    pub site: u64,
    pub numbers: Vec<u64>,
    pub lengths: Vec<u64>,
    pub names: Vec<u8>,
}

impl Plan {
    pub fn new(log: u64, mode: u64, site: u64) -> Plan {
        Plan { log, mode, site, ..Plan::default() }
    }

    pub fn with(mut self, number: u64, name: &[u8]) -> Plan {
        self.numbers.push(number);
        self.lengths.push(name.len() as u64);
        self.names.extend(name);
        self
    }

    fn in_bounds(&self) -> bool {
        let rising = self.numbers.windows(2).all(|pair| pair[0] < pair[1]);
        let numbers = self.numbers.len() <= 16 && self.numbers.iter().all(|number| (1..65536).contains(number));
        let names = self.lengths.len() == self.numbers.len() && self.lengths.iter().all(|length| (1..33).contains(length));
        let whole = names && self.lengths.iter().sum::<u64>() == self.names.len() as u64;
        self.log < 3 && (1..4).contains(&self.mode) && self.site < 65536 && rising && numbers && whole
    }
}

/// An entry of a record, and a record: what follows a length of two bytes.
fn framed(first: &[u8], rest: &[u8]) -> Vec<u8> {
    [first, &(rest.len() as u16).to_be_bytes(), rest].concat()
}

/// The record, or the number of the refusal.
pub fn written(version: u64, plan: &Plan) -> Result<Vec<u8>, u32> {
    if version != 1 && version != 2 {
        return Err(24);
    }
    if !plan.in_bounds() || version == 1 && plan.site != 0 {
        return Err(23);
    }
    Ok(assembled(version, plan))
}

/// The same without a look at bounds: each number in its bytes, and each name, which is there, behind its length.
pub fn assembled(version: u64, plan: &Plan) -> Vec<u8> {
    let (mut committers, mut names) = (vec![3], &plan.names[..]);
    for (number, length) in plan.numbers.iter().zip(&plan.lengths) {
        let (name, rest) = names.split_at(*length as usize);
        committers.extend((*number as u16).to_be_bytes());
        committers.push(*length as u8);
        committers.extend(name);
        names = rest;
    }
    let mut entries =
        [framed(&[], &[1, plan.log as u8]), framed(&[], &[2, plan.mode as u8]), framed(&[], &committers)].concat();
    if version == 2 {
        entries.extend(framed(&[], &[4, (plan.site >> 8) as u8, plan.site as u8]));
    }
    framed(&[version as u8], &entries)
}

/// The settings, taken from where they stand if this is a record.
fn guessed(record: &[u8]) -> Option<Plan> {
    let at = |i: usize| record.get(i).map(|&byte| u64::from(byte));
    let size = (at(11)? << 8 | at(12)?).checked_sub(1)?;
    let (mut content, site) = record.get(14..)?.split_at(size.min(record.len() as u64 - 14) as usize);
    let site = if let [_, _, _, high, low] = site { u64::from(*high) << 8 | u64::from(*low) } else { 0 };
    let mut plan = Plan::new(at(6)?, at(10)?, site);
    while let [high, low, length, rest @ ..] = content {
        let name = rest.get(..usize::from(*length))?;
        plan = plan.with(u64::from(*high) << 8 | u64::from(*low), name);
        content = &rest[name.len()..];
    }
    Some(plan)
}

/// The settings of a record, or the number of the refusal. It is a record if it is what a writer gives for them.
pub fn settings(record: &[u8], known: u64) -> Result<Plan, u32> {
    let version = record.first().map(|&byte| u64::from(byte));
    match (known, version) {
        (1 | 2, None) => return Err(23),
        (1 | 2, Some(version)) if 1 <= version && version <= known => (),
        _ => return Err(24),
    }
    guessed(record).filter(|plan| written(version.unwrap_or(0), plan).as_deref() == Ok(record)).ok_or(23)
}

/// What a call answers that is done with these places, or refused.
fn answered(result: Result<Vec<u64>, u32>) -> Reply {
    let mut reply = (0, [0; 16]);
    match result {
        Ok(places) => reply.1[..places.len()].copy_from_slice(&places),
        Err(number) => reply.0 = number,
    }
    reply
}

/// What reading a record answers.
pub fn read(record: &[u8], known: u64) -> Reply {
    answered(settings(record, known).map(|plan| vec![plan.log, plan.mode, plan.site, plan.numbers.len() as u64]))
}

pub fn read_committer(record: &[u8], known: u64, place: u64) -> Reply {
    answered(settings(record, known).and_then(|plan| {
        let i = usize::try_from(place).ok().filter(|&i| i < plan.numbers.len()).ok_or(22_u32)?;
        let before: u64 = plan.lengths[..i].iter().sum();
        Ok(vec![plan.numbers[i], 14 + 3 * (place + 1) + before, plan.lengths[i]])
    }))
}

// ---- by the plain entries

pub fn asked(call: impl FnOnce(&mut [u8]) -> u32) -> Reply {
    let mut record = [0xaa; 128]; // each place is written, so none of these stay
    let number = call(&mut record);
    let mut places = [0; 16];
    (0..16).for_each(|i| places[i] = place(&record, i));
    (number, places)
}

pub fn read_plainly(record: &[u8], known: u64) -> Reply {
    asked(|answer| plain::read_settings(record, known, answer))
}

pub fn read_committer_plainly(record: &[u8], known: u64, place: u64) -> Reply {
    asked(|answer| plain::read_committer(record, known, place, answer))
}

pub fn write_plainly(buffer: &mut [u8], version: u64, plan: &Plan) -> Reply {
    let head = [version, plan.log, plan.mode, plan.site];
    asked(|answer| plain::write_settings(buffer, head, &plan.numbers, &plan.lengths, &plan.names, answer))
}

// ---- through the crate

pub fn version_of(version: u64) -> Version {
    if version == 1 {
        Version::One
    } else {
        Version::Two
    }
}

/// The settings of a plan, if the types hold its numbers: else they are others.
pub fn settings_of(plan: &Plan) -> Result<Settings, Refusal> {
    let mut settings = Settings::new(setting_of(plan.log), mode_of(plan.mode)).of_site(Site::new(plan.site)?);
    let mut names = &plan.names[..];
    for (number, length) in plan.numbers.iter().zip(&plan.lengths) {
        let name = names.get(..*length as usize).ok_or(Refusal::MalformedRecord)?;
        settings.push(Committer::new(*number)?, name)?;
        names = &names[name.len()..];
    }
    Ok(settings)
}

/// And back.
pub fn plan_of(settings: &Settings) -> Plan {
    let log = (0..3).find(|&log| setting_of(log) == settings.log).unwrap();
    let mode = (1..4).find(|&mode| mode_of(mode) == settings.mode).unwrap();
    let plan = Plan::new(log, mode, settings.site.get());
    settings.committers().fold(plan, |plan, committer| plan.with(committer.number.get(), committer.name))
}

pub fn read_through(record: &[u8], known: u64) -> Reply {
    reply(SettingsView::read(record, version_of(known)), |view| {
        let numbers = plan_of(&Settings::new(view.log(), view.mode()).of_site(view.site()));
        vec![numbers.log, numbers.mode, numbers.site, view.committer_count()]
    })
}

pub fn read_committer_through(record: &[u8], known: u64, place: u64) -> Reply {
    let found = SettingsView::read(record, version_of(known)).and_then(|view| view.read_committer(place));
    reply(found, |committer| {
        let offset = committer.name.as_ptr() as usize - record.as_ptr() as usize;
        vec![committer.number.get(), offset as u64, committer.name.len() as u64]
    })
}
