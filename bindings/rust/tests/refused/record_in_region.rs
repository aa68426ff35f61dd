//! A store is not started with a record that stands in its own region.
use dehlbazin::*;

pub fn service(region: &mut Region) -> Result<Setting, Refusal> {
    let view = SettingsView::read(&region[..43], Version::Two)?;
    #[cfg(refused)]
    Store::start_with_settings(region, view.record())?; // refused: error[E0502]
    Ok(view.log())
}
