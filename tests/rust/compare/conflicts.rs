//! Refusal 25 where the Rust's prepare has none: a row would write a loose value above one that is there (difference 9), or above or
//! beneath one that an earlier row would write (difference 10). This is a model of its own, written from the scope's words: splits, what
//! R3 reads, which locks are kept by R4. The Rust says only how far its prepare came.

use crate::answer::{Answer, Reply};
use crate::case::{packable, Case, Change, Loose, Target};

/// A row, as far as 25 looks at it.
#[derive(Clone, Copy)]
struct Row {
    name: usize,
    new: Option<Target>,
    log_only: bool,
    deref: bool,
}

/// The refusal with 25 that comes before whatever the Rust's prepare answers, and the number of the difference. None if there is no such
/// row, or if the Rust refuses the list as a whole, or an earlier row.
pub fn refusal(case: &Case, rust: &Answer) -> Option<(Answer, usize)> {
    let rows = rows(case);
    let turns = match (&rust.prepared, rust.turn) {
        (Some(_), _) => rows.len(),
        (None, Some(name)) => 1 + rows.iter().position(|row| row.name == name)?,
        (None, None) => 0,
    };
    let opened = is_opened(case, &rows);
    let writes: Vec<bool> = rows.iter().map(|row| writes_value(case, opened, row)).collect();
    let (place, number) = (0..turns).filter(|place| writes[*place]).find_map(|place| {
        let name = rows[place].name;
        let value_beneath = case.store.beneath(name).any(|lower| case.store.state.loose[lower].is_some());
        let earlier = (0..place).any(|earlier| writes[earlier] && case.store.nest(rows[earlier].name, name));
        (value_beneath || earlier).then_some((place, if value_beneath { 9 } else { 10 }))
    })?;
    let reply = Reply::new(25, &[rows[place].name as u64]);
    (rust.reply != reply).then(|| (Answer::refused(reply), number))
}

/// R1: edits, and in rounds a child for each row with deref set whose loose value is a link. The parent becomes log-only. A fifth round
/// that yields is refused, so four are enough.
fn rows(case: &Case) -> Vec<Row> {
    let of_edit = |edit: &crate::case::Edit| {
        let new = match edit.change {
            Change::Update { new, .. } => Some(new),
            Change::Delete => None,
        };
        Row { name: edit.name, new, log_only: edit.log_only, deref: edit.deref }
    };
    let mut rows: Vec<Row> = case.edits.iter().map(of_edit).collect();
    let mut first = 0;
    for _ in 0..4 {
        let last = rows.len();
        for place in first..last {
            let row = rows[place];
            if let (true, Some(Loose::Value(Target::Link(next)))) = (row.deref, case.store.state.loose[row.name]) {
                rows.push(Row { name: next, ..row });
                rows[place].log_only = true;
            }
        }
        first = last;
    }
    rows
}

/// R2: whether the packed table is opened.
fn is_opened(case: &Case, rows: &[Row]) -> bool {
    let mut counting = rows.iter().filter(|row| !row.log_only && packable(&case.store.names[row.name])).peekable();
    let packed = case.store.state.packed.iter().any(Option::is_some);
    counting.peek().is_some() && (packed || case.mode > 1 && counting.any(|row| matches!(row.new, Some(Target::Object(_)))))
}

/// Whether a row would write a loose value in W1: an update that is neither log-only nor direct, and keeps its lock by R4.
fn writes_value(case: &Case, opened: bool, row: &Row) -> bool {
    let Some(new) = row.new else { return false };
    let is_object = matches!(new, Target::Object(_));
    let direct = case.mode == 3 && is_object && packable(&case.store.names[row.name]);
    let existing = match case.store.state.loose[row.name] {
        Some(Loose::Value(target)) => Some(target),
        _ => case.store.state.packed[row.name].filter(|_| opened).map(Target::Object),
    };
    !row.log_only && !direct && (!is_object || existing != Some(new))
}
