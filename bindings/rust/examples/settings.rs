//! A layout service's use of a settings record. It is written when a site is set up, and kept in a file. With each run the
//! service reads it, starts a store with it, and commits by one of its committers, in its usual mode. Run it with: bash
//! tools/test-rust example settings

use dehlbazin::*;

/// What the site is set up with: the bytes of the file.
fn set_up() -> Result<Vec<u8>, Refusal> {
    let mut settings = Settings::new(Setting::Normal, PackedRefs::DeletionsOnly).of_site(Site(7));
    settings.push(Committer::new(12)?, "planner")?;
    settings.push(Committer::new(40)?, "night shift")?;
    let mut buffer = [0; Settings::MOST_BYTES];
    Ok(settings.write(Version::Two, &mut buffer)?.to_vec())
}

/// A name may be any bytes; what is no text is shown as such.
fn shown(name: &[u8]) -> String {
    String::from_utf8_lossy(name).into_owned()
}

fn say(view: SettingsView<'_>) {
    println!("site {}, log setting {:?}, mode {:?}", view.site().get(), view.log(), view.mode());
    for committer in view.committers() {
        println!("committer {:<5} {}", committer.number.get(), shown(committer.name));
    }
}

/// Moves an aisle by the committer of that name. Who is not among the site's committers moves nothing.
fn make(store: &mut Store<'_>, view: SettingsView<'_>, who: &str, aisle: NameNumber, layout: u64) -> Result<(), Refusal> {
    if let Some(committer) = view.committers().find(|committer| committer.name == who.as_bytes()) {
        let edit = RefEdit::update(aisle, PreviousValue::Any, ObjectNumber::new(layout)?);
        let outcome = store.prepare(&EditList::of([edit])?, view.mode())?.commit(committer.number)?;
        println!("{who} moved it: {outcome}");
    } else {
        println!("{who} is no committer of this site");
    }
    Ok(())
}

/// A record that is refused stops the service before anything is started: settings that were guessed help nobody.
fn serve(region: &mut Region, record: &[u8]) -> Result<(), Refusal> {
    let view = SettingsView::read(record, Version::Two)?;
    say(view);
    let mut store = Store::start_with_settings(region, view.record())?;
    let aisle = store.add_name("refs/heads/aisle-7")?;
    make(&mut store, view, "planner", aisle, 4102)?;
    make(&mut store, view, "night shift", aisle, 4103)?;
    make(&mut store, view, "visitor", aisle, 4104)?;
    for line in store.lines(aisle)? {
        let previous = line.previous.map_or(0, ObjectNumber::get);
        println!("{previous} to {}, by {}", line.new.get(), line.committer.get());
    }
    Ok(())
}

fn main() -> Result<(), Refusal> {
    let mut region = Box::new([0; REGION_SIZE]);
    let record = set_up()?;
    println!("a record of {} bytes", record.len());
    serve(&mut region, &record)?;
    // A service that knows version 1 alone refuses this record by its version.
    if let Err(refusal) = SettingsView::read(&record, Version::One) {
        println!("refused with number {}: {refusal}", refusal.number());
    }
    // One whose last byte was lost on the way is refused too, and the store stays as it was.
    let before = region.clone();
    if let Err(refusal) = serve(&mut region, &record[..record.len() - 1]) {
        println!("refused with number {}: {refusal}", refusal.number());
    }
    println!("the store is {}", if region == before { "as it was" } else { "another" });
    Ok(())
}
