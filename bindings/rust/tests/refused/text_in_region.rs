//! A text does not stand in the region that it is read into.
use dehlbazin::*;

pub fn service(store: &mut Store<'_>, name: NameNumber) -> Result<usize, Refusal> {
    let bytes = store.name_bytes(name)?;
    #[cfg(refused)]
    store.read_packed(bytes)?; // refused: error[E0502]
    Ok(bytes.len())
}
