//! A region has its size.
use dehlbazin::*;

pub fn service(bytes: &mut [u8; REGION_SIZE - 1]) -> bool {
    #[cfg(refused)]
    let _ = Store::open(bytes); // refused: error[E0308]
    Store::open_in(bytes).is_ok()
}
