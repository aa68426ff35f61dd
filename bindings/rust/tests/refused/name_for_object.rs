//! The number of a name is no object's.
use dehlbazin::*;

pub fn service(store: &mut Store<'_>, name: NameNumber, object: ObjectNumber) -> Result<(), Refusal> {
    #[cfg(refused)]
    store.load_packed(name, name)?; // refused: error[E0277]
    store.load_packed(name, object)
}
