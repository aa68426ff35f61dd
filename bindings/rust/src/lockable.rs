//! What a foreign lock is placed on.

use crate::NameNumber;

/// What another program may hold: a name, or the packed table. Each has a lock of its own.
///
/// ```
/// use dehlbazin::{Lockable, Refusal, Setting, Store};
///
/// let mut region = vec![0; dehlbazin::REGION_SIZE];
/// let mut store = Store::start_in(&mut region, Setting::Normal)?;
/// let aisle = store.add_name("refs/heads/aisle")?;
/// store.place_lock(aisle)?; // the same as Lockable::Name(aisle)
/// assert_eq!(store.place_lock(Lockable::Name(aisle)), Err(Refusal::WrongLock));
///
/// // The packed table is still free.
/// assert_eq!(store.lift_lock(Lockable::PackedTable), Err(Refusal::WrongLock));
/// store.place_lock(Lockable::PackedTable)?;
/// store.lift_lock(aisle)?;
/// # Ok::<(), Refusal>(())
/// ```
#[derive(Clone, Copy, Debug, PartialEq, Eq, Hash)]
pub enum Lockable {
    /// A name.
    Name(NameNumber),
    /// The packed table.
    PackedTable,
}

impl Lockable {
    /// Its kind and its number, as the calls have them. Beside the packed table's kind no number is looked at.
    pub(crate) fn parts(self) -> (u64, u64) {
        match self {
            Lockable::Name(name) => (0, name.get()),
            Lockable::PackedTable => (1, 0),
        }
    }
}

impl From<NameNumber> for Lockable {
    fn from(name: NameNumber) -> Lockable {
        Lockable::Name(name)
    }
}
