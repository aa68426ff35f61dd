//! A receiver does not stand in the region that it is closed on.
use dehlbazin::*;

pub fn service(region: &mut Region, other: &mut Region) -> Result<u64, Refusal> {
    let mut receiver = Receiver::open_in(&mut region[..RECEIVER_SIZE])?;
    let mut store = Store::open(other)?;
    #[cfg(refused)]
    let mut store = Store::open(region)?; // refused: error[E0499]
    let transaction = receiver.close(&mut store, PackedRefs::DeletionsOnly)?;
    transaction.rollback()
}
