//! A transaction lives no longer than its region.
use dehlbazin::*;

pub fn service(list: &EditList) -> Result<u64, Refusal> {
    let mut outer = Box::new([0; REGION_SIZE]);
    let mut region = Box::new([0; REGION_SIZE]);
    let mut store = Store::start(&mut outer, Setting::Normal)?;
    let mut other = Store::start(&mut region, Setting::Normal)?;
    let transaction = other.prepare(list, PackedRefs::DeletionsOnly)?;
    #[cfg(refused)]
    drop(region); // refused: error[E0505]
    store.rollback()?;
    transaction.rollback()
}
