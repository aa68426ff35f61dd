//! A version is one of two, and no number.
use dehlbazin::*;

pub fn service(record: &[u8]) -> Result<Site, Refusal> {
    #[cfg(refused)]
    SettingsView::read(record, 2)?; // refused: error[E0308]
    Ok(SettingsView::read(record, Version::Two)?.site())
}
