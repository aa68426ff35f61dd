//! What a side answers to a case.

use crate::case::{Line, Loose, State, Target};

/// A number, and the places of the record that can be used beside it.
#[derive(Clone, Copy, PartialEq, Eq, Debug)]
pub struct Reply {
    pub number: u32,
    pub places: [u64; 5],
}

/// The Rust failed in a way that has no number.
pub const FAILED: u32 = 1000;
/// The store cannot be laid out as files at all.
pub const NO_LAYOUT: u32 = 1001;
/// The Rust panicked, and not where the scope has a number for it.
pub const PANICKED: u32 = 1002;
/// The Rust's commit failed with an error of the file system. Places 0 and 1 are the writes made and the row's name. Its value could not
/// be moved into its place.
pub const NOT_PLACED: u32 = 1003;
/// The same: its value could not be removed.
pub const NOT_REMOVED: u32 = 1004;
/// The same: its log could not get a line, or could not be removed.
pub const NOT_LOGGED: u32 = 1005;

/// A row: places 0 to 12 of `read_row`, in their order. Place 13 is no part of it, since it follows from the store.
pub type Row = [u64; 13];

/// One write of a commit, by what it does to the state.
#[derive(Clone, PartialEq, Eq, Debug)]
pub enum Step {
    Line(Line),
    Loose(usize, Target),
    RemoveLog(usize),
    Packed(Vec<Option<u64>>),
    RemoveLoose(usize),
}

/// What a prepare that is done leaves behind, and how the transaction ended.
#[derive(Clone, PartialEq, Eq, Debug)]
pub struct Prepared {
    pub rows: Vec<Row>,
    pub ours: Vec<bool>,
    pub ours_packed: bool,
    pub end: Reply,
    pub steps: Vec<Step>,
    pub after: State,
}

#[derive(Clone, PartialEq, Eq, Debug)]
pub struct Answer {
    pub reply: Reply,
    /// Of a refusal in a row's turn, the row's name.
    pub turn: Option<usize>,
    pub prepared: Option<Prepared>,
}

impl Reply {
    pub fn new(number: u32, used: &[u64]) -> Self {
        let mut places = [0; 5];
        places[..used.len()].copy_from_slice(used);
        Reply { number, places }
    }
}

impl Answer {
    pub fn refused(reply: Reply) -> Self {
        Answer { reply, turn: None, prepared: None }
    }
}

impl Step {
    /// Makes the write in a state.
    pub fn apply(&self, state: &mut State) {
        match self {
            Step::Line(line) => state.lines.push(*line),
            Step::Loose(name, target) => state.loose[*name] = Some(Loose::Value(*target)),
            Step::RemoveLog(name) => state.lines.retain(|line| line.name != *name),
            Step::Packed(table) => state.packed.clone_from(table),
            Step::RemoveLoose(name) => state.loose[*name] = None,
        }
    }
}
