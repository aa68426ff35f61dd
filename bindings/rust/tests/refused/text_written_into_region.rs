//! A text is not written into the region that it is the text of.
use dehlbazin::*;

pub fn service(region: &mut Region, buffer: &mut [u8]) -> Result<usize, Refusal> {
    let view = View::open(region)?;
    #[cfg(refused)]
    let buffer = &mut region[..]; // refused: error[E0502]
    view.write_packed(buffer)
}
