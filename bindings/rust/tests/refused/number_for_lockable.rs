//! A lock is placed on a name or on the packed table, and on no bare number.
use dehlbazin::*;

pub fn service(store: &mut Store<'_>, number: u64) -> Result<(), Refusal> {
    #[cfg(refused)]
    store.place_lock(number)?; // refused: error[E0277]
    store.place_lock(NameNumber::new(number)?)
}
