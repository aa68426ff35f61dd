//! A layout service's backup of its packed table: a text in the lines of git's packed-refs file, which is kept elsewhere and
//! comes back when the store has to be set up anew. A text that was cut on its way is refused, and harms nothing. Run it with:
//! bash tools/test-rust example backup

use dehlbazin::*;

/// The layouts that are packed, and one that is loose before a packed one.
fn set_up(store: &mut Store<'_>) -> Result<(), Refusal> {
    for (name, layout) in [("refs/heads/aisle-7", 4102), ("refs/heads/aisle-10", 4001), ("refs/tags/spring", 3977)] {
        let name = store.add_name(name)?;
        store.load_packed(name, ObjectNumber::new(layout)?)?;
    }
    let aisle = store.add_name("refs/heads/aisle-7")?;
    store.load_loose(aisle, Target::Object(ObjectNumber::new(4103)?))
}

/// The text, which the service keeps in a file. While a planner's transaction is prepared it has what is packed until then.
fn back_up(store: &mut Store<'_>) -> Result<Vec<u8>, Refusal> {
    let spring = store.add_name("refs/tags/spring")?;
    let list = EditList::of([RefEdit::delete(spring, PreviousValue::MustExist)])?;
    let transaction = store.prepare(&list, PackedRefs::DeletionsOnly)?;
    let text = transaction.store().packed_text()?;
    print!("{}", String::from_utf8_lossy(&text));
    let outcome = transaction.commit(Committer::new(12)?)?;
    println!("a backup of {} bytes; and then {outcome}", text.len());
    Ok(text)
}

fn say_values(store: &Store<'_>) -> Result<(), Refusal> {
    for name in store.names() {
        println!("{} {}", name.text, store.read_name(name.number)?.in_words(store));
    }
    Ok(())
}

/// A text that comes back, and what became of it in words.
fn bring_back(store: &mut Store<'_>, text: &[u8]) {
    match store.read_packed(text) {
        Ok(refs) => println!("{refs} refs came back"),
        Err(refusal) => println!("refused with number {}: {}", refusal.number(), refusal.in_words(&*store)),
    }
}

fn serve(region: &mut Region) -> Result<(), Refusal> {
    let mut store = Store::start(region, Setting::Normal)?;
    set_up(&mut store)?;
    let text = back_up(&mut store)?;
    say_values(&store)?;

    // What is deleted comes back, and the loose value stays before the packed one.
    bring_back(&mut store, &text);
    say_values(&store)?;

    // Into a new store: with a text that lost its end nothing comes back, with the whole one all names and their layouts.
    store.restart(Setting::Normal)?;
    bring_back(&mut store, &text[..100]);
    println!("{} names", store.names().count());
    bring_back(&mut store, &text);
    say_values(&store)?;

    // The same text is written again. A buffer that is too short for it gets nothing.
    println!("the text is {}", if store.packed_text()? == text { "the same" } else { "another" });
    if let Err(refusal) = store.write_packed(&mut [0; 100]) {
        println!("refused with number {}: {refusal}", refusal.number());
    }
    Ok(())
}

fn main() -> Result<(), Refusal> {
    serve(&mut [0; REGION_SIZE])
}
