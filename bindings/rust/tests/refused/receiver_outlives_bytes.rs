//! A receiver lives no longer than its bytes.
use dehlbazin::*;

pub fn service(mut bytes: Vec<u8>) -> Result<usize, Refusal> {
    let mut receiver = Receiver::fresh_in(&mut bytes)?;
    #[cfg(refused)]
    drop(bytes); // refused: error[E0505]
    receiver.take("a fragment")
}
