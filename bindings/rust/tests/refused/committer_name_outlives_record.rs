//! A committer's name stands in the record, and lives no longer.
use dehlbazin::*;

pub fn service(record: Vec<u8>) -> Result<usize, Refusal> {
    let view = SettingsView::read(&record, Version::Two)?;
    let name = view.read_committer(0)?.name;
    #[cfg(refused)]
    drop(record); // refused: error[E0505]
    Ok(name.len())
}
