//! While a transaction is held, no list is closed on its store.
use dehlbazin::*;

pub fn service(store: &mut Store<'_>, receiver: &mut Receiver<'_>, list: &EditList) -> Result<u64, Refusal> {
    let transaction = store.prepare(list, PackedRefs::DeletionsOnly)?;
    #[cfg(refused)]
    let _ = receiver.close(store, PackedRefs::DeletionsOnly); // refused: error[E0499]
    receiver.make_fresh()?;
    transaction.rollback()
}
