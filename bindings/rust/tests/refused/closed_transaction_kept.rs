//! A transaction that was closed borrows its store, as one that was prepared does.
use dehlbazin::*;

pub fn service(store: &mut Store<'_>, receiver: &mut Receiver<'_>, name: NameNumber) -> Result<u64, Refusal> {
    let transaction = receiver.close(store, PackedRefs::DeletionsOnly)?;
    #[cfg(refused)]
    store.load_loose(name, Loose::None)?; // refused: error[E0499]
    let _ = name;
    receiver.take("the next list")?; // it borrows no receiver
    transaction.rollback()
}
