//! One store has one transaction at a time.
use dehlbazin::*;

pub fn service(store: &mut Store<'_>, list: &EditList) -> Result<u64, Refusal> {
    let first = store.prepare(list, PackedRefs::DeletionsOnly)?;
    #[cfg(refused)]
    let _second = store.prepare(list, PackedRefs::DeletionsOnly)?; // refused: error[E0499]
    first.rollback()
}
