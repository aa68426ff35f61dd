//! What a name reads, and where it was found.

use crate::Target;

/// Where a value was found, or that none was. The numbers are those of the answers.
#[derive(Clone, Copy, Debug, PartialEq, Eq, Hash)]
pub enum Place {
    /// The loose value is a target. What is packed does not matter.
    Loose = 1,
    /// There is no loose value, and an object is packed.
    Packed = 2,
    /// The loose value is broken, and an object is packed.
    PackedBehindBroken = 3,
    /// There is no loose value, and nothing is packed.
    Absent = 4,
    /// The loose value is broken, and nothing is packed.
    AbsentBehindBroken = 5,
}

impl Place {
    /// Whether nothing was found.
    pub(crate) fn is_absent(self) -> bool {
        matches!(self, Place::Absent | Place::AbsentBehindBroken)
    }

    pub(crate) fn of(number: u64) -> Option<Place> {
        match number {
            1 => Some(Place::Loose),
            2 => Some(Place::Packed),
            3 => Some(Place::PackedBehindBroken),
            4 => Some(Place::Absent),
            5 => Some(Place::AbsentBehindBroken),
            _ => None,
        }
    }
}

/// What a name reads, and where that was found.
///
/// ```
/// use dehlbazin::{Found, Loose, ObjectNumber, Place, Setting, Store, Target};
///
/// let mut region = vec![0; dehlbazin::REGION_SIZE];
/// let mut store = Store::start_in(&mut region, Setting::Normal)?;
/// let aisle = store.add_name("refs/heads/aisle")?;
/// let old = ObjectNumber::new(7)?;
/// store.load_packed(aisle, old)?;
/// store.load_loose(aisle, Loose::Broken)?;
///
/// // An old layout is read, since the newer one is broken.
/// let found = store.read_name(aisle)?;
/// assert_eq!(found, Found { target: Some(Target::Object(old)), place: Place::PackedBehindBroken });
/// assert_eq!(found.to_string(), "object 7, packed behind a broken loose");
/// # Ok::<(), dehlbazin::Refusal>(())
/// ```
#[derive(Clone, Copy, Debug, PartialEq, Eq, Hash)]
pub struct Found {
    /// The value; `None` exactly if the place is one of the two that are absent.
    pub target: Option<Target>,
    /// Where it was found.
    pub place: Place,
}
