//! The bytes of a name stand in the region: while they are held, nothing is added there.
use dehlbazin::*;

pub fn service(store: &mut Store<'_>, name: NameNumber) -> Result<usize, Refusal> {
    let bytes = store.name_bytes(name)?;
    #[cfg(refused)]
    store.add_name(bytes)?; // refused: error[E0502]
    Ok(bytes.len())
}
