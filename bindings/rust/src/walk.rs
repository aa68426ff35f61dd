//! Names, lines and rows, one after the other. Each is read when the walk comes to it.

use crate::{Line, NameNumber, Refusal, Row, View};

/// A name with its number.
#[derive(Clone, Copy, Debug, PartialEq, Eq, Hash)]
pub struct Name<'a> {
    /// Its number.
    pub number: NameNumber,
    /// Its bytes, which stand in the region.
    pub text: &'a str,
}

/// The names of a store, in the order in which they were added.
#[derive(Clone, Debug)]
pub struct Names<'a> {
    view: View<'a>,
    place: u64,
}

/// The lines of a name's log, the oldest first.
#[derive(Clone, Debug)]
pub struct Lines<'a> {
    view: View<'a>,
    name: NameNumber,
    place: u64,
}

/// The rows of the prepared transaction.
#[derive(Clone, Debug)]
pub struct Rows<'a> {
    view: View<'a>,
    place: u64,
}

impl<'a> View<'a> {
    /// The names, in the order in which they were added.
    pub fn names(self) -> Names<'a> {
        Names { view: self, place: 0 }
    }

    /// The lines of a name's log, the oldest first. Refused with 3 where there is no such name.
    pub fn lines(self, name: NameNumber) -> Result<Lines<'a>, Refusal> {
        self.name_bytes(name)?;
        Ok(Lines { view: self, name, place: 0 })
    }

    /// The rows of the prepared transaction; none where none is prepared.
    pub fn rows(self) -> Rows<'a> {
        Rows { view: self, place: 0 }
    }
}

// The region is lent to the walk, so that what was good stays so: a refusal is the end of what is there, and stays the end.

impl<'a> Iterator for Names<'a> {
    type Item = Name<'a>;

    fn next(&mut self) -> Option<Name<'a>> {
        let number = NameNumber::new(self.place).ok()?;
        let text = self.view.name(number).ok()?;
        self.place += 1;
        Some(Name { number, text })
    }
}

impl Iterator for Lines<'_> {
    type Item = Line;

    fn next(&mut self) -> Option<Line> {
        let line = self.view.read_line(self.name, self.place).ok()?;
        self.place += 1;
        Some(line)
    }
}

impl Iterator for Rows<'_> {
    type Item = Row;

    fn next(&mut self) -> Option<Row> {
        let row = self.view.read_row(self.place).ok()?;
        self.place += 1;
        Some(row)
    }
}

impl std::iter::FusedIterator for Names<'_> {}
impl std::iter::FusedIterator for Lines<'_> {}
impl std::iter::FusedIterator for Rows<'_> {}
