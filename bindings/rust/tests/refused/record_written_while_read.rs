//! A record that is being read is not written over.
use dehlbazin::*;

pub fn service(settings: &Settings, buffer: &mut [u8]) -> Result<usize, Refusal> {
    let view = SettingsView::read(buffer, Version::Two)?;
    #[cfg(refused)]
    settings.write(Version::Two, buffer)?; // refused: error[E0502]
    let _ = settings;
    Ok(view.committers().count())
}
