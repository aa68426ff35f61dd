//! A store laid out as files in a directory of its own, and read back from there.

use crate::answer::Step;
use crate::case::{Line, Loose, State, Store, Target};
use counted::ledger::Write;
use gix_hash::ObjectId;
use gix_ref::{file::log, packed};
use std::collections::BTreeMap;
use std::fs;
use std::io;
use std::path::{Path, PathBuf};

/// A directory that is emptied for each case, and removed in the end.
pub struct Site {
    root: PathBuf,
}

impl Site {
    /// A new directory, in memory if the machine has a place for that.
    pub fn new() -> io::Result<Self> {
        let memory = Path::new("/dev/shm");
        let base = if memory.is_dir() { memory.to_owned() } else { std::env::temp_dir() };
        let root = base.join(format!("dehlbazin-compare-{}", std::process::id()));
        fs::create_dir_all(&root)?;
        Ok(Site { root })
    }

    pub fn git_dir(&self) -> PathBuf {
        self.root.join("git")
    }

    /// Empties the directory and lays out a store. It fails if a path would have to be a file and a directory.
    pub fn lay_out(&self, store: &Store) -> io::Result<()> {
        let dir = self.git_dir();
        if dir.exists() {
            fs::remove_dir_all(&dir)?;
        }
        fs::create_dir(&dir)?;
        let state = &store.state;
        for (number, name) in store.names.iter().enumerate() {
            if let Some(loose) = state.loose[number] {
                write(&dir.join(name), &loose_text(store, loose))?;
            }
            if state.locks[number] {
                write(&gix_lock::lock_path(&dir.join(name)), "")?;
            }
            if let Some(text) = log_text(state, number) {
                write(&dir.join("logs").join(name), &text)?;
            }
        }
        if state.packed.iter().any(Option::is_some) {
            write(&self.packed_path(), &packed_text(store, &state.packed))?;
        }
        if state.packed_lock {
            write(&gix_lock::lock_path(&self.packed_path()), "")?;
        }
        Ok(())
    }

    /// Removes the packed table's file, if the store has no packed value.
    pub fn drop_empty_table(&self, store: &Store) {
        if store.state.packed.iter().all(Option::is_none) {
            fs::remove_file(self.packed_path()).ok();
        }
    }

    pub fn packed_path(&self) -> PathBuf {
        self.git_dir().join("packed-refs")
    }

    /// What is in the packed table's file, if it is there.
    pub fn packed_file(&self) -> Option<String> {
        fs::read_to_string(self.packed_path()).ok()
    }

    /// Which names are locked now, and whether the packed table is.
    pub fn locks(&self, store: &Store) -> (Vec<bool>, bool) {
        let dir = self.git_dir();
        let names = store.names.iter().map(|name| gix_lock::lock_path(&dir.join(name)).is_file()).collect();
        (names, gix_lock::lock_path(&self.packed_path()).is_file())
    }

    /// Locks every name and the packed table, if they are free.
    pub fn lock_all(&self, store: &Store) -> io::Result<()> {
        let dir = self.git_dir();
        let names = store.names.iter().map(|name| dir.join(name));
        for lock in names.chain([self.packed_path()]).map(|path| gix_lock::lock_path(&path)) {
            if !lock.exists() {
                write(&lock, "")?;
            }
        }
        Ok(())
    }

    /// The state as the files have it. Lines stand by name, since each name has a log of its own.
    pub fn read(&self, store: &Store) -> State {
        let dir = self.git_dir();
        let mut state = State::empty(store.names.len());
        (state.locks, state.packed_lock) = self.locks(store);
        let packed = self.packed_file().map_or_else(BTreeMap::new, |text| packed::parse(&text));
        for (number, name) in store.names.iter().enumerate() {
            let loose = fs::read_to_string(dir.join(name)).ok();
            state.loose[number] = loose.map(|text| loose_from(store, &text));
            state.packed[number] = packed.get(name).map(ObjectId::number);
            let log = fs::read_to_string(dir.join("logs").join(name)).unwrap_or_default();
            state.lines.extend(log.lines().map(|line| line_from(number, line)));
        }
        state
    }

    /// The name whose file this is.
    pub fn name_of(&self, store: &Store, path: &Path) -> usize {
        let name = path.strip_prefix(self.git_dir()).expect("a path in the directory");
        number_of(store, &name.to_string_lossy())
    }

    /// The name whose log this is.
    pub fn log_of(&self, store: &Store, path: &Path) -> usize {
        let name = path.strip_prefix(self.git_dir().join("logs")).expect("a log");
        number_of(store, &name.to_string_lossy())
    }

    /// What a write of the ledger does to the state.
    pub fn step(&self, store: &Store, write: &Write) -> Step {
        let logs = self.git_dir().join("logs");
        match write {
            Write::Append(path, text) => Step::Line(line_from(self.log_of(store, path), text.trim_end())),
            Write::Replace(path, text) if *path == self.packed_path() => {
                let table = packed::parse(text);
                Step::Packed(store.names.iter().map(|name| table.get(name).map(ObjectId::number)).collect())
            }
            Write::Replace(path, text) => match loose_from(store, text) {
                Loose::Value(target) => Step::Loose(self.name_of(store, path), target),
                Loose::Broken => panic!("a value was written that cannot be read"),
            },
            Write::Remove(path) => match path.strip_prefix(&logs) {
                Ok(name) => Step::RemoveLog(number_of(store, &name.to_string_lossy())),
                Err(_) => Step::RemoveLoose(self.name_of(store, path)),
            },
        }
    }
}

impl Drop for Site {
    fn drop(&mut self) {
        fs::remove_dir_all(&self.root).ok();
    }
}

/// The number of a name.
pub fn number_of(store: &Store, name: &str) -> usize {
    store.names.iter().position(|known| known == name).unwrap_or_else(|| panic!("{name} is no name of this store"))
}

fn write(path: &Path, text: &str) -> io::Result<()> {
    match fs::write(path, text) {
        Err(err) if err.kind() == io::ErrorKind::NotFound => {
            fs::create_dir_all(path.parent().expect("a path in the directory"))?;
            fs::write(path, text)
        }
        done => done,
    }
}

fn loose_text(store: &Store, loose: Loose) -> String {
    match loose {
        Loose::Value(Target::Object(number)) => format!("{}\n", ObjectId::from_number(number)),
        Loose::Value(Target::Link(name)) => format!("ref: {}\n", store.names[name]),
        Loose::Broken => "broken\n".to_owned(),
    }
}

fn loose_from(store: &Store, text: &str) -> Loose {
    let text = text.trim_end();
    match (text.strip_prefix("ref: "), ObjectId::from_hex(text)) {
        (Some(name), _) => Loose::Value(Target::Link(number_of(store, name))),
        (None, Some(id)) => Loose::Value(Target::Object(id.number())),
        (None, None) => Loose::Broken,
    }
}

/// The packed table's file: a header, and a line for each value.
pub fn packed_text(store: &Store, packed: &[Option<u64>]) -> String {
    let values = store.names.iter().zip(packed);
    let entries = values.filter_map(|(name, packed)| Some((name.clone(), ObjectId::from_number((*packed)?))));
    packed::text(&entries.collect::<BTreeMap<String, ObjectId>>())
}

/// The log of a name, if it has lines.
fn log_text(state: &State, name: usize) -> Option<String> {
    let lines = state.lines.iter().filter(|line| line.name == name).map(|line| {
        let (previous, new) = (ObjectId::from_number(line.previous), ObjectId::from_number(line.new));
        log::line(&previous, &new, &line.committer.to_string(), &line.message.to_string())
    });
    let text: String = lines.collect();
    (!text.is_empty()).then_some(text)
}

fn line_from(name: usize, text: &str) -> Line {
    let mut words = text.split([' ', '\t']);
    let mut next = || words.next().expect("a line has all its words");
    let previous = ObjectId::from_hex(next()).expect("an id").number();
    let new = ObjectId::from_hex(next()).expect("an id").number();
    let committer = next().parse().expect("a committer's number");
    let message = text.rsplit('\t').next().and_then(|message| message.parse().ok()).expect("a message's number");
    Line { name, previous, new, committer, message }
}
