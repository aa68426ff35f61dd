//! Short words to write a case down.

use crate::case::{Case, Change, Edit, End, Expected, Line, Loose, Store, Target, ENOUGH};

pub fn object(number: u64) -> Target {
    Target::Object(number)
}

pub fn link(name: usize) -> Target {
    Target::Link(name)
}

/// An update that expects anything, of the reference and its log.
pub fn update(name: usize, new: Target) -> Edit {
    Edit {
        name,
        change: Change::Update { new, force: false, message: 3 },
        deref: false,
        log_only: false,
        expected: Expected::Any,
    }
}

/// A delete that expects anything, of the reference and its log.
pub fn delete(name: usize) -> Edit {
    Edit { name, change: Change::Delete, deref: false, log_only: false, expected: Expected::Any }
}

impl Edit {
    pub fn deref(self) -> Self {
        Edit { deref: true, ..self }
    }

    pub fn log_only(self) -> Self {
        Edit { log_only: true, ..self }
    }

    pub fn expect(self, expected: Expected) -> Self {
        Edit { expected, ..self }
    }

    pub fn force(self) -> Self {
        let Change::Update { new, message, .. } = self.change else { panic!("a delete has no force") };
        Edit { change: Change::Update { new, force: true, message }, ..self }
    }
}

/// A case in mode 1 with committer 1, over names that have nothing.
pub fn store(setting: u8, names: &[&str]) -> Case {
    let end = End::Commit { committer: 1, allowance: ENOUGH };
    Case { store: Store::new(setting, names), edits: Vec::new(), mode: 1, end }
}

impl Case {
    pub fn loose(mut self, name: usize, target: Target) -> Self {
        self.store.state.loose[name] = Some(Loose::Value(target));
        self
    }

    pub fn broken(mut self, name: usize) -> Self {
        self.store.state.loose[name] = Some(Loose::Broken);
        self
    }

    pub fn packed(mut self, name: usize, object: u64) -> Self {
        self.store.state.packed[name] = Some(object);
        self
    }

    pub fn line(mut self, name: usize, previous: u64, new: u64) -> Self {
        self.store.state.lines.push(Line { name, previous, new, committer: 2, message: 9 });
        self
    }

    pub fn lock(mut self, name: usize) -> Self {
        self.store.state.locks[name] = true;
        self
    }

    pub fn lock_packed(mut self) -> Self {
        self.store.state.packed_lock = true;
        self
    }

    pub fn edit(mut self, edit: Edit) -> Self {
        self.edits.push(edit);
        self
    }

    pub fn mode(self, mode: u8) -> Self {
        Case { mode, ..self }
    }

    pub fn commit(self, committer: u16, allowance: u64) -> Self {
        Case { end: End::Commit { committer, allowance }, ..self }
    }

    pub fn rollback(self) -> Self {
        Case { end: End::Rollback, ..self }
    }
}
