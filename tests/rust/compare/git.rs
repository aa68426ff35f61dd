//! git as a second judge: `git update-ref --stdin` on the part of the domain that git shares, which git-update-ref(1) and
//! git-config(1) describe. The store, the edits and the answer are the same; only ids are git's own, since git wants objects that
//! exist.
//!
//! What git does otherwise is left out: it adds a line to HEAD's log where the branch that HEAD links to is updated directly, or
//! where nothing changes through a link; an edit of a link without deref logs what the link leads to; a delete through a link
//! keeps the link's log; an update that expects nothing there is refused though its own value is there.

use crate::answer::Answer;
use crate::build::{delete, link, object, store, update};
use crate::case::{packable, Case, Change, Edit, Expected, Line, Loose, State, Target};
use crate::dice::Dice;
use crate::site::Site;
use gix_hash::ObjectId;
use std::fs;
use std::io::{self, Write};
use std::path::{Path, PathBuf};
use std::process::{Command, Stdio};

const OBJECTS: [u64; 4] = [1, 2, 3, 4];
const NAMES: [&str; 8] = [
    "HEAD",
    "refs/heads/aisle",
    "refs/heads/bay/one",
    "refs/tags/v1",
    "refs/remotes/origin/main",
    "refs/notes/commits",
    "refs/bisect/bad",
    "refs/stash",
];
const MESSAGE: u16 = 3;

/// A directory with commits, and git's id for each object of the cases.
pub struct Git {
    objects: PathBuf,
    ids: Vec<(String, String)>,
}

impl Git {
    /// Makes one commit for each object. None if there is no git.
    pub fn new(site: &Site) -> Option<Self> {
        let dir = site.git_dir().with_file_name("objects");
        Command::new("git").args(["init", "--quiet", "--bare"]).arg(&dir).status().ok().filter(|status| status.success())?;
        let run = |arguments: &[&str]| {
            let output =
                identify(Command::new("git").arg("-C").arg(&dir).args(arguments)).stdin(Stdio::null()).output().ok()?;
            output.status.success().then(|| String::from_utf8_lossy(&output.stdout).trim().to_owned())
        };
        let tree = run(&["hash-object", "-t", "tree", "-w", "/dev/null"])?;
        let mut ids = Vec::new();
        for number in OBJECTS {
            ids.push((ObjectId::from_number(number).to_string(), run(&["commit-tree", &tree, "-m", &number.to_string()])?));
        }
        Some(Git { objects: dir.join("objects"), ids })
    }

    /// What git makes of a case: whether it was done, and the state afterwards.
    pub fn run(&self, site: &Site, case: &Case) -> io::Result<(bool, State)> {
        site.lay_out(&case.store)?;
        let dir = site.git_dir();
        fs::create_dir_all(dir.join("refs"))?;
        self.respell(&dir, |(ours, gits)| (ours, gits))?;
        let logs = if case.store.setting == 1 { "true" } else { "always" };
        let settings = format!("[core]\nbare = true\nlogAllRefUpdates = {logs}\nfilesRefLockTimeout = 0\n");
        fs::write(dir.join("config"), settings)?;
        let done = self.update_ref(&dir, &self.commands(case))?;
        self.respell(&dir, |(ours, gits)| (gits, ours))?;
        Ok((done, site.read(&case.store)))
    }

    fn update_ref(&self, dir: &Path, commands: &str) -> io::Result<bool> {
        let mut command = Command::new("git");
        command.args(["update-ref", "-m", &MESSAGE.to_string(), "--stdin"]);
        command.env("GIT_DIR", dir).env("GIT_OBJECT_DIRECTORY", &self.objects);
        identify(&mut command).stdin(Stdio::piped()).stdout(Stdio::null()).stderr(Stdio::null());
        let mut child = command.spawn()?;
        // git may have refused the list, and be gone, before all of it is written.
        child.stdin.take().expect("it is piped").write_all(commands.as_bytes()).ok();
        Ok(child.wait()?.success())
    }

    /// The edits as lines for git.
    fn commands(&self, case: &Case) -> String {
        let mut text = String::new();
        for edit in &case.edits {
            if !edit.deref {
                text.push_str("option no-deref\n");
            }
            let name = &case.store.names[edit.name];
            let old = match edit.expected.parts() {
                (2, _) => format!(" {}", ObjectId::from_number(0)),
                (3, Some(Target::Object(number))) => format!(" {}", self.id(number)),
                _ => String::new(),
            };
            text.push_str(&match edit.change {
                Change::Update { new: Target::Object(number), .. } => format!("update {name} {}{old}\n", self.id(number)),
                _ => format!("delete {name}{old}\n"),
            });
        }
        text
    }

    fn id(&self, number: u64) -> &str {
        let ours = ObjectId::from_number(number).to_string();
        self.ids.iter().find(|(known, _)| *known == ours).map(|(_, gits)| gits.as_str()).expect("an object of these cases")
    }

    /// Spells the ids in all files of a directory in the other way.
    fn respell<'a>(&'a self, dir: &Path, way: fn(&'a (String, String)) -> (&'a String, &'a String)) -> io::Result<()> {
        for entry in fs::read_dir(dir)? {
            let path = entry?.path();
            if path.is_dir() {
                self.respell(&path, way)?;
                continue;
            }
            let text = fs::read_to_string(&path)?;
            fs::write(path, self.ids.iter().map(way).fold(text, |text, (from, to)| text.replace(from, to)))?;
        }
        Ok(())
    }
}

fn identify(command: &mut Command) -> &mut Command {
    for who in ["AUTHOR", "COMMITTER"] {
        command.env(format!("GIT_{who}_NAME"), "1").env(format!("GIT_{who}_EMAIL"), "1");
        command.env(format!("GIT_{who}_DATE"), "@0 +0000");
    }
    command.env("GIT_CONFIG_NOSYSTEM", "1").env("GIT_CONFIG_GLOBAL", "/dev/null")
}

/// Why git and the other two are not of one mind, if so.
pub fn difference(git: &(bool, State), answer: &Answer, before: &State) -> Option<String> {
    let (done, state) = git;
    let (number, expected) = match &answer.prepared {
        Some(prepared) if prepared.end.number == 0 => (0, &prepared.after),
        _ => (answer.reply.number, before),
    };
    let (mut expected, mut found) = (expected.clone(), state.clone());
    expected.lines.sort_by_key(|line| line.name);
    found.lines.sort_by_key(|line| line.name);
    let same = *done == (number == 0) && expected == found;
    (!same).then(|| format!("git says done: {done}, the others answer {number}; git leaves {found:?}, the others {expected:?}"))
}

/// A random case of the part that git shares.
pub fn case(dice: &mut Dice) -> Case {
    let mut case = store(1 + dice.below(2) as u8, &NAMES);
    for (name, text) in NAMES.iter().enumerate().skip(1) {
        if dice.percent(50) {
            case = case.loose(name, object(dice.pick(&OBJECTS)));
        }
        if dice.percent(25) && packable(text) {
            case = case.packed(name, dice.pick(&OBJECTS));
        }
        if dice.percent(2) {
            case = case.lock(name);
        }
        if dice.percent(30) {
            case.store.state.lines.push(Line { name, previous: 0, new: dice.pick(&OBJECTS), committer: 1, message: 9 });
        }
    }
    let head = if dice.percent(70) { link(1 + dice.below(NAMES.len() - 1)) } else { object(dice.pick(&OBJECTS)) };
    case = case.loose(0, head);
    let mut order: Vec<usize> = (0..NAMES.len()).collect();
    dice.shuffle(&mut order);
    order.truncate(1 + dice.below(4));
    if dice.percent(5) {
        order.push(order[0]);
    }
    case.edits = order.into_iter().filter_map(|name| edit(dice, &case, name)).collect();
    case
}

/// An edit of a name, if git shares one.
fn edit(dice: &mut Dice, case: &Case, name: usize) -> Option<Edit> {
    let state = &case.store.state;
    let head = match state.loose[0] {
        Some(Loose::Value(Target::Link(leaf))) => Some(leaf),
        _ => None,
    };
    if head == Some(name) {
        return None;
    }
    let through = head.filter(|_| name == 0);
    let there = state.read(through.unwrap_or(name));
    let new = object(dice.pick(&OBJECTS));
    let deleted = dice.percent(35);
    if through.is_some() && (deleted || there == Some(new)) {
        return None;
    }
    let edit = if deleted { delete(name) } else { update(name, new) };
    let edit = if through.is_some() || dice.percent(30) { edit.deref() } else { edit };
    Some(edit.expect(match dice.below(4) {
        0 if !deleted && there != Some(new) => Expected::MustNotExist,
        1 => there.map_or(Expected::Any, Expected::MustExistAndMatch),
        2 if dice.percent(30) => Expected::MustExistAndMatch(object(dice.pick(&OBJECTS))),
        _ => Expected::Any,
    }))
}
