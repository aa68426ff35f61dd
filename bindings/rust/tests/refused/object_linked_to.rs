//! A link leads to a name, never to an object.
use dehlbazin::*;

pub fn service(name: NameNumber, object: ObjectNumber) -> [Target; 2] {
    #[cfg(refused)]
    let _ = Target::Symbolic(object); // refused: error[E0308]
    [Target::Symbolic(name), Target::Object(object)]
}
