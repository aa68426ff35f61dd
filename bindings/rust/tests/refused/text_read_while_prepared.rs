//! While a transaction is held, no text is read into its packed table.
use dehlbazin::*;

pub fn service(store: &mut Store<'_>, list: &EditList, text: &[u8]) -> Result<u64, Refusal> {
    let transaction = store.prepare(list, PackedRefs::DeletionsOnly)?;
    #[cfg(refused)]
    store.read_packed(text)?; // refused: error[E0499]
    let _ = text;
    transaction.rollback()
}
