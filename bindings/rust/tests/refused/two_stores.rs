//! One region has one store at a time.
use dehlbazin::*;

pub fn service(region: &mut Region) -> Result<(), Refusal> {
    let mut first = Store::open(region)?;
    #[cfg(refused)]
    let _second = Store::open(region)?; // refused: error[E0499]
    first.place_lock(Lockable::PackedTable)
}
