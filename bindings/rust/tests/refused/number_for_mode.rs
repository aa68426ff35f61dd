//! A mode is one of three, and no number.
use dehlbazin::*;

pub fn service(store: &mut Store<'_>, receiver: &mut Receiver<'_>) -> Result<u64, Refusal> {
    #[cfg(refused)]
    let _ = receiver.close(store, 1); // refused: error[E0308]
    receiver.close(store, PackedRefs::DeletionsOnly)?.rollback()
}
