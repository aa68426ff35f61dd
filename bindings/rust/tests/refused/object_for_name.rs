//! The number of an object is no name's.
use dehlbazin::*;

pub fn service(store: &mut Store<'_>, name: NameNumber, object: ObjectNumber) -> Result<(), Refusal> {
    #[cfg(refused)]
    store.load_loose(object, Loose::None)?; // refused: error[E0308]
    let _ = object;
    store.load_loose(name, Loose::None)
}
