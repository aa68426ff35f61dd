//! What a name reads comes with its place, and is no target alone.
use dehlbazin::*;

pub fn service(store: &Store<'_>, name: NameNumber, layout: Target) -> Result<bool, Refusal> {
    let found = store.read_name(name)?;
    #[cfg(refused)]
    let _ = found == Some(layout); // refused: error[E0308]
    Ok(found.target == Some(layout))
}
