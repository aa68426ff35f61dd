//! A layout service's use of Dehlbazin: it moves the layout that HEAD leads to, is refused where its expectation is outdated,
//! and says so in words. A move of two aisles is stopped half way. Then it reads the log. Run it with: bash tools/test-rust
//! example

use dehlbazin::*;

/// A move: through the links of a name, from one layout to another, and not if something else than the first is there.
fn moving(name: NameNumber, from: u64, to: u64) -> Result<RefEdit, Refusal> {
    let expected = PreviousValue::MustExistAndMatch(Target::Object(ObjectNumber::new(from)?));
    Ok(RefEdit::update(name, expected, ObjectNumber::new(to)?).through_links())
}

/// All moves are prepared or none. Then as many writes are made as are allowed. If a question mark left early in between, the
/// transaction would be rolled back, and its locks would be free.
fn make(store: &mut Store<'_>, moves: &[RefEdit], allowance: u64) -> Result<Outcome, Refusal> {
    let service = Committer::new(30)?;
    let transaction = store.prepare(&EditList::of(moves.iter().copied())?, PackedRefs::DeletionsOnly)?;
    println!("prepared {} rows", transaction.row_count());
    for row in transaction.store().rows() {
        let what = if row.parent.is_some() { ", through a link" } else { "" };
        println!("  {}{what}", transaction.store().name(row.name)?);
    }
    transaction.commit_within(service, allowance)
}

/// What became of it, in words.
fn say(store: &Store<'_>, result: Result<Outcome, Refusal>) {
    match result {
        Ok(outcome) => println!("{outcome}"),
        Err(refusal) => println!("refused with number {}: {}", refusal.number(), refusal.in_words(store)),
    }
}

/// Each value with its place, so that it shows which one is old because a newer one is broken.
fn say_values(store: &Store<'_>) -> Result<(), Refusal> {
    for name in store.names() {
        println!("{:<20} {}", name.text, store.read_name(name.number)?.in_words(store));
    }
    Ok(())
}

fn say_log(store: &Store<'_>) -> Result<(), Refusal> {
    for name in store.names() {
        for line in store.lines(name.number)? {
            let previous = line.previous.map_or(0, ObjectNumber::get);
            println!("{:<20} {previous} to {}, by {}", name.text, line.new.get(), line.committer.get());
        }
    }
    Ok(())
}

/// A refusal that was not foreseen leaves with the question mark: a layout that was guessed helps nobody.
fn serve(region: &mut Region) -> Result<(), Refusal> {
    let mut store = Store::start(region, Setting::Normal)?;
    let head = store.add_name("HEAD")?;
    let aisle7 = store.add_name("refs/heads/aisle-7")?;
    let aisle8 = store.add_name("refs/heads/aisle-8")?;
    let aisle9 = store.add_name("refs/heads/aisle-9")?;
    store.load_loose(head, Target::Symbolic(aisle7))?;
    store.load_loose(aisle7, Target::Object(ObjectNumber::new(4102)?))?;
    store.load_loose(aisle8, Target::Object(ObjectNumber::new(u64::MAX)?))?; // every 64-bit number but 0 is a layout
    store.load_packed(aisle9, ObjectNumber::new(4090)?)?;
    store.load_loose(aisle9, Loose::Broken)?; // a newer layout was there, and cannot be read any more
    say_values(&store)?;

    let moved = make(&mut store, &[moving(head, 4102, 4103)?], EVERY_WRITE);
    say(&store, moved);
    // Who still thinks that 4102 is there learns what is.
    let outdated = make(&mut store, &[moving(aisle7, 4102, 4104)?], EVERY_WRITE);
    say(&store, outdated);
    // An aisle that somebody else holds is left alone.
    store.place_lock(aisle7)?;
    let held = make(&mut store, &[moving(head, 4103, 4104)?], EVERY_WRITE);
    say(&store, held);
    store.lift_lock(aisle7)?;
    // Three writes are too few for this. Each aisle reads its old layout or its new one then, never a third.
    let stopped = make(&mut store, &[moving(head, 4103, 4104)?, moving(aisle8, u64::MAX, 4104)?], 3);
    say(&store, stopped);
    say_values(&store)?;
    say_log(&store)?;
    // A number that was mixed up on the way is refused whole. It is not taken for name 0.
    if let Err(refusal) = NameNumber::new(65536) {
        println!("refused with number {}: {refusal}", refusal.number());
    }
    Ok(())
}

fn main() -> Result<(), Refusal> {
    serve(&mut [0; REGION_SIZE])
}
