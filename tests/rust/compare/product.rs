//! Every combination of some lists: the cases that are tried without chance.

use crate::case::{Case, Change, Edit, Expected, Target};

/// A family of cases: it hands out every one of them.
pub type Family = fn(&mut dyn FnMut(&Case));

/// Two names of which one lies beneath the other: the edited one, and another.
pub const NESTED: [[&str; 2]; 2] = [["refs/heads/a/b", "refs/heads/a"], ["refs/heads/a", "refs/heads/a/b"]];

/// Every edit of a name that can be made from these parts.
pub struct Parts<'a> {
    pub news: &'a [Target],
    pub expected: &'a [Expected],
    pub forces: &'a [bool],
}

impl Parts<'_> {
    /// Updates and deletes, with and without deref, log-only or not.
    pub fn edits(&self, name: usize) -> Vec<Edit> {
        let mut edits = Vec::new();
        for (deref, log_only) in [(false, false), (false, true), (true, false), (true, true)] {
            for &expected in self.expected {
                edits.push(Edit { name, change: Change::Delete, deref, log_only, expected });
                for (&new, &force) in pairs(self.news, self.forces) {
                    edits.push(Edit { name, change: Change::Update { new, force, message: 3 }, deref, log_only, expected });
                }
            }
        }
        edits
    }
}

/// Every member of one list with every member of another.
pub fn pairs<'a, A, B>(first: &'a [A], second: &'a [B]) -> impl Iterator<Item = (&'a A, &'a B)> {
    first.iter().flat_map(move |a| second.iter().map(move |b| (a, b)))
}

/// The five expectations, the two that match with each of these targets.
pub fn expectations(targets: &[Target]) -> Vec<Expected> {
    let mut list = vec![Expected::Any, Expected::MustExist, Expected::MustNotExist];
    list.extend(targets.iter().map(|target| Expected::MustExistAndMatch(*target)));
    list.extend(targets.iter().map(|target| Expected::ExistingMustMatch(*target)));
    list
}
