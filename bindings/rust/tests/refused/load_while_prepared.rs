//! While a transaction is held, no value is loaded below it.
use dehlbazin::*;

pub fn service(store: &mut Store<'_>, list: &EditList, name: NameNumber) -> Result<u64, Refusal> {
    let transaction = store.prepare(list, PackedRefs::DeletionsOnly)?;
    #[cfg(refused)]
    store.load_loose(name, Loose::None)?; // refused: error[E0499]
    let _ = name;
    transaction.rollback()
}
