//! Bytes have one receiver at a time.
use dehlbazin::*;

pub fn service(bytes: &mut ReceiverBytes) -> Result<usize, Refusal> {
    let mut first = Receiver::open(bytes)?;
    #[cfg(refused)]
    let _second = Receiver::open(bytes)?; // refused: error[E0499]
    first.take("a fragment")
}
