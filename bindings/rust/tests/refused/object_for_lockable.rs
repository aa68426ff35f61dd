//! An object has no lock.
use dehlbazin::*;

pub fn service(store: &mut Store<'_>, name: NameNumber, object: ObjectNumber) -> Result<(), Refusal> {
    #[cfg(refused)]
    store.place_lock(object)?; // refused: error[E0277]
    let _ = object;
    store.place_lock(name)
}
