//! A text is written, so its buffer is one that can be.
use dehlbazin::*;

pub fn service(store: &Store<'_>, buffer: &mut [u8], constant: &[u8]) -> Result<usize, Refusal> {
    #[cfg(refused)]
    store.write_packed(constant)?; // refused: error[E0308]
    let _ = constant;
    store.write_packed(buffer)
}
