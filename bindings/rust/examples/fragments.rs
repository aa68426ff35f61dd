//! A layout service's use of a message bus, which delivers an edit list in pieces. Each piece goes into a receiver as it comes,
//! and the list is prepared when the bus says that it is over. A list that lost a piece is refused whole, and is sent again.
//! Run it with: bash tools/test-rust example fragments

use dehlbazin::*;

/// What the bus delivers: a piece of a list, or that the list is over.
enum Delivery<'m> {
    Piece(&'m [u8]),
    Over,
}

/// The list of a planner: each aisle moves to a layout.
fn moves(aisles: &[NameNumber], layout: u64) -> Result<Vec<u8>, Refusal> {
    let layout = ObjectNumber::new(layout)?;
    let list = EditList::of(aisles.iter().map(|&aisle| RefEdit::update(aisle, PreviousValue::Any, layout)))?;
    Ok(list.bytes())
}

/// What the service does with a delivery, and what became of it in words. A refusal is said, and the bus goes on.
fn on(delivery: Delivery<'_>, receiver: &mut Receiver<'_>, store: &mut Store<'_>) -> Result<(), Refusal> {
    let service = Committer::new(30)?;
    let result = match delivery {
        Delivery::Piece(bytes) => receiver.take(bytes).map(|held| format!("{} bytes came, {held} are held", bytes.len())),
        Delivery::Over => receiver
            .close(store, PackedRefs::DeletionsOnly)
            .and_then(|transaction| transaction.commit(service))
            .map(|outcome| format!("the list is over: {outcome}")),
    };
    match result {
        Ok(words) => println!("{words}"),
        Err(refusal) => println!("refused with number {}: {}", refusal.number(), refusal.in_words(&*store)),
    }
    Ok(())
}

fn say_values(store: &Store<'_>) -> Result<(), Refusal> {
    for name in store.names() {
        println!("{} {}", name.text, store.read_name(name.number)?.in_words(store));
    }
    Ok(())
}

fn serve(region: &mut Region) -> Result<(), Refusal> {
    let mut store = Store::start(region, Setting::Normal)?;
    let aisles = [store.add_name("refs/heads/aisle-7")?, store.add_name("refs/heads/aisle-8")?];
    let mut bytes = [0; RECEIVER_SIZE];
    let mut receiver = Receiver::fresh(&mut bytes)?;

    // A list in three pieces. They are cut anywhere: the first ends within the first edit.
    let list = moves(&aisles, 4102)?;
    for delivery in [&list[..20], &list[20..50], &list[50..]].map(Delivery::Piece) {
        on(delivery, &mut receiver, &mut store)?;
    }
    on(Delivery::Over, &mut receiver, &mut store)?;
    say_values(&store)?;

    // The next one loses its second piece. What came is no list, so neither aisle moves.
    let list = moves(&aisles, 4103)?;
    on(Delivery::Piece(&list[..20]), &mut receiver, &mut store)?;
    on(Delivery::Piece(&list[50..]), &mut receiver, &mut store)?;
    on(Delivery::Over, &mut receiver, &mut store)?;
    say_values(&store)?;

    // The receiver is fresh all the same, and the list is sent again. A piece for which there is no room is not taken, and does
    // no harm to what is held.
    on(Delivery::Piece(&list[..50]), &mut receiver, &mut store)?;
    on(Delivery::Piece(&[0; EditList::MOST_BYTES]), &mut receiver, &mut store)?;
    on(Delivery::Piece(&list[50..]), &mut receiver, &mut store)?;
    on(Delivery::Over, &mut receiver, &mut store)?;
    say_values(&store)
}

fn main() -> Result<(), Refusal> {
    serve(&mut [0; REGION_SIZE])
}
