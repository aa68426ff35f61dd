//! A fragment does not stand in the receiver that takes it.
use dehlbazin::*;

pub fn service(receiver: &mut Receiver<'_>) -> Result<usize, Refusal> {
    let bytes = receiver.bytes();
    #[cfg(refused)]
    receiver.take(&bytes[..2])?; // refused: error[E0502]
    Ok(bytes.len())
}
