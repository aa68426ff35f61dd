//! A receiver has its size.
use dehlbazin::*;

pub fn service(bytes: &mut [u8; RECEIVER_SIZE - 1]) -> bool {
    #[cfg(refused)]
    let _ = Receiver::open(bytes); // refused: error[E0308]
    Receiver::open_in(bytes).is_ok()
}
