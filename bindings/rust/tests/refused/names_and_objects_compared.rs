//! A name's number and an object's are not compared.
use dehlbazin::*;

pub fn service(name: NameNumber, object: ObjectNumber) -> bool {
    #[cfg(refused)]
    let _ = name == object; // refused: error[E0308]
    name.get() == object.get()
}
