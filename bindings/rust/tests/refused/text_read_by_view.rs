//! A view changes nothing, so a text is read into a store.
use dehlbazin::*;

pub fn service(view: View<'_>, text: &[u8]) -> Result<Vec<u8>, Refusal> {
    #[cfg(refused)]
    view.read_packed(text)?; // refused: error[E0599]
    let _ = text;
    view.packed_text()
}
