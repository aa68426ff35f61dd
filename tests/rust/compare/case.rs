//! A case: a store, a list of edits, how they are packed, and how the transaction ends. The words are the scope's (docs/SPEC.md).

#[derive(Clone, Copy, PartialEq, Eq, Debug)]
pub enum Target {
    Object(u64),
    Link(usize),
}

#[derive(Clone, Copy, PartialEq, Eq, Debug)]
pub enum Loose {
    Value(Target),
    Broken,
}

#[derive(Clone, Copy, PartialEq, Eq, Debug)]
pub struct Line {
    pub name: usize,
    pub previous: u64,
    pub new: u64,
    pub committer: u16,
    pub message: u16,
}

/// What a transaction can change, and the foreign locks. Every table has a place for each name.
#[derive(Clone, PartialEq, Eq, Debug, Default)]
pub struct State {
    pub loose: Vec<Option<Loose>>,
    pub packed: Vec<Option<u64>>,
    pub lines: Vec<Line>,
    pub locks: Vec<bool>,
    pub packed_lock: bool,
}

#[derive(Clone, PartialEq, Eq, Debug, Default)]
pub struct Store {
    pub setting: u8,
    pub names: Vec<String>,
    pub state: State,
}

#[derive(Clone, Copy, PartialEq, Eq, Debug)]
pub enum Expected {
    Any,
    MustExist,
    MustNotExist,
    MustExistAndMatch(Target),
    ExistingMustMatch(Target),
}

#[derive(Clone, Copy, PartialEq, Eq, Debug)]
pub enum Change {
    Update { new: Target, force: bool, message: u16 },
    Delete,
}

#[derive(Clone, Copy, PartialEq, Eq, Debug)]
pub struct Edit {
    pub name: usize,
    pub change: Change,
    pub deref: bool,
    pub log_only: bool,
    pub expected: Expected,
}

#[derive(Clone, Copy, PartialEq, Eq, Debug)]
pub enum End {
    Commit { committer: u16, allowance: u64 },
    Rollback,
}

#[derive(Clone, PartialEq, Eq, Debug)]
pub struct Case {
    pub store: Store,
    pub edits: Vec<Edit>,
    pub mode: u8,
    pub end: End,
}

/// More writes than any case has.
pub const ENOUGH: u64 = 1000;

impl Target {
    /// Kind and number, as they cross the interface.
    pub fn numbers(target: Option<Target>) -> [u64; 2] {
        match target {
            None => [0, 0],
            Some(Target::Object(number)) => [1, number],
            Some(Target::Link(name)) => [2, name as u64],
        }
    }
}

impl Loose {
    pub fn numbers(loose: Option<Loose>) -> [u64; 2] {
        match loose {
            None => [0, 0],
            Some(Loose::Value(target)) => Target::numbers(Some(target)),
            Some(Loose::Broken) => [3, 0],
        }
    }
}

impl Expected {
    /// The number of the expectation, and the target that goes with it.
    pub fn parts(self) -> (u64, Option<Target>) {
        match self {
            Expected::Any => (0, None),
            Expected::MustExist => (1, None),
            Expected::MustNotExist => (2, None),
            Expected::MustExistAndMatch(target) => (3, Some(target)),
            Expected::ExistingMustMatch(target) => (4, Some(target)),
        }
    }
}

impl State {
    /// The state of a store whose names have nothing.
    pub fn empty(names: usize) -> Self {
        State { loose: vec![None; names], packed: vec![None; names], locks: vec![false; names], ..State::default() }
    }

    /// What a name reads: its loose target, else its packed value.
    pub fn read(&self, name: usize) -> Option<Target> {
        self.find(name, true).0
    }

    /// The value of a name and the number of the place where it is found, by a reader that sees packed values or does not: 1 loose,
    /// 2 packed, 3 packed behind a broken loose value, 4 absent, 5 absent behind a broken loose value.
    pub fn find(&self, name: usize, sees_packed: bool) -> (Option<Target>, u64) {
        let packed = self.packed[name].filter(|_| sees_packed).map(Target::Object);
        match (self.loose[name], packed) {
            (Some(Loose::Value(target)), _) => (Some(target), 1),
            (None, Some(_)) => (packed, 2),
            (Some(Loose::Broken), Some(_)) => (packed, 3),
            (None, None) => (None, 4),
            (Some(Loose::Broken), None) => (None, 5),
        }
    }
}

impl Store {
    pub fn new(setting: u8, names: &[&str]) -> Self {
        let names: Vec<String> = names.iter().map(|name| name.to_string()).collect();
        let state = State::empty(names.len());
        Store { setting, names, state }
    }

    /// The names that lie beneath a name.
    pub fn beneath(&self, name: usize) -> impl Iterator<Item = usize> + '_ {
        (0..self.names.len()).filter(move |other| beneath(&self.names[*other], &self.names[name]))
    }

    /// Whether one of two names lies beneath the other.
    pub fn nest(&self, one: usize, other: usize) -> bool {
        let (one, other) = (&self.names[one], &self.names[other]);
        beneath(one, other) || beneath(other, one)
    }

    /// Whether a loose value stands beneath another. No region is good then, and no directory has room for both.
    pub fn has_nested_values(&self) -> bool {
        let value = |name: &usize| self.state.loose[*name].is_some();
        (0..self.names.len()).filter(value).any(|name| self.beneath(name).any(|lower| value(&lower)))
    }

    /// The names whose foreign locks cannot be files: each lies beneath a loose value, so that there is no directory for it.
    pub fn locks_without_files(&self) -> Vec<usize> {
        let value = |name: &usize| self.state.loose[*name].is_some();
        let beneath_values = (0..self.names.len()).filter(value).flat_map(|name| self.beneath(name));
        beneath_values.filter(|name| self.state.locks[*name]).collect()
    }
}

/// Whether a name lies beneath another: it begins with that name and a `/`.
pub fn beneath(lower: &str, upper: &str) -> bool {
    lower.strip_prefix(upper).is_some_and(|rest| rest.starts_with('/'))
}

/// Whether a name can be packed.
pub fn packable(name: &str) -> bool {
    let private = ["refs/bisect/", "refs/worktree/", "refs/rewritten/"];
    name.starts_with("refs/") && !private.iter().any(|prefix| name.starts_with(prefix))
}
