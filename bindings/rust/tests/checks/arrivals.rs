//! Random lists that arrive in random fragments, in one receiver, by both ways and as the header says. Now and then bytes come
//! that are no list, or more than there is room for; it is closed too early, or on a store where a transaction is prepared; and
//! a byte of it is changed.

use crate::damaged::Met;
use crate::dice::Dice;
use crate::receiver::*;
use crate::same::some_edits;
use crate::site::*;
use crate::step::{bare, list_bytes};
use crate::tally::{check, done, same};
use dehlbazin::*;

const NAMES: [&str; 5] = ["HEAD", "refs/heads/aisle", "refs/heads/bay", "refs/tags/v1", "refs/heads/bay/e"];

/// Stores to close on: with few values, with more, and with a transaction prepared.
fn stores() -> [Box<Region>; 4] {
    let mut few = site(&NAMES);
    done(done(Store::open(&mut few)).load_loose(HEAD, link(AISLE)));
    let mut more = few.clone();
    let mut store = done(Store::open(&mut more));
    done(store.load_loose(AISLE, object(1)));
    done(store.load_loose(NameNumber(2), object(2)));
    done(store.load_packed(NameNumber(3), ObjectNumber::new(3).unwrap()));
    let mut prepared = more.clone();
    done(done(Store::open(&mut prepared)).prepare(&EditList::new(), MODE)).leave_prepared();
    [few.clone(), few, more, prepared]
}

/// What is on its way, and what has arrived.
struct Bus {
    dice: Dice,
    stores: [Box<Region>; 4],
    rest: Vec<u8>,
    receiver: Vec<u8>,
    took: Met,
    closed: Met,
}

impl Bus {
    /// The next piece of what is on its way: none of it, a byte, a few, all of a message's size, or all that is left.
    fn next(&mut self) -> Vec<u8> {
        let left = self.rest.len();
        let size = match self.dice.below(5) {
            0 => 0,
            1 => 1,
            2 => self.dice.below(30) as usize,
            3 => 512,
            _ => left,
        };
        self.rest.drain(..size.min(left)).collect()
    }

    /// A new list, or now and then bytes that are none.
    fn send(&mut self) {
        self.rest = list_bytes(&some_edits(&mut self.dice, NAMES.len() as u16));
        if self.dice.once_in(12) {
            self.rest = (0..self.dice.below(1000)).map(|_| self.dice.any() as u8).collect();
        }
    }

    fn take(&mut self, fragment: &[u8]) {
        *self.took.entry(takes(&mut self.receiver, fragment)).or_default() += 1;
    }

    fn close(&mut self) {
        let store = self.dice.below(4) as usize;
        let number = closes(&self.stores[store], &mut self.receiver, 1 + self.dice.below(3));
        *self.closed.entry(number).or_default() += 1;
    }

    /// A byte is changed, and then one of the calls is made. A bad receiver is made fresh.
    fn damage(&mut self) {
        let at = self.dice.below(870) as usize;
        self.receiver[at] = self.receiver[at].wrapping_add(1 + self.dice.below(255) as u8);
        if self.dice.once_in(2) {
            self.close();
        } else {
            self.take(b"more");
        }
        if held(&self.receiver).is_none() {
            same(fresh_plainly(&mut self.receiver), bare(0));
            check(self.receiver == holding(&[]), "a fresh one");
        }
    }

    /// One turn. What has arrived whole is closed next, mostly.
    fn turn(&mut self) {
        match self.dice.below(40) {
            0 => self.damage(),
            1 => self.close(),
            2 => self.take(&[0x5a; 869]),
            _ if self.rest.is_empty() => {
                if !self.dice.once_in(4) {
                    self.close();
                }
                self.send();
            }
            _ => {
                let fragment = self.next();
                self.take(&fragment);
            }
        }
    }
}

pub fn all(turns: u64, seed: u64) {
    let (took, closed) = (Met::new(), Met::new());
    let mut bus = Bus { dice: Dice::new(seed), stores: stores(), rest: Vec::new(), receiver: holding(&[]), took, closed };
    (0..turns).for_each(|_| bus.turn());
    println!("arrivals: {turns} turns, seed {seed}; took {:?}, closed {:?}", bus.took, bus.closed);
    for number in [0, 1, 26] {
        check(bus.took.get(&number).map_or(false, |&met| met > turns / 200), &format!("{number} was met by taking"));
    }
    for number in [0, 1, 2, 3, 12, 15] {
        check(bus.closed.get(&number).map_or(false, |&met| met > turns / 1000), &format!("{number} was met by closing"));
    }
}
