//! A number of 64 bits is tested before it is a name's.
use dehlbazin::*;

pub fn service(number: u64) -> Result<NameNumber, Refusal> {
    #[cfg(refused)]
    let _ = NameNumber(number); // refused: error[E0308]
    NameNumber::new(number)
}
