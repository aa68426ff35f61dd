//! A place is one of five, and no number.
use dehlbazin::*;

pub fn service(row: Row) -> bool {
    #[cfg(refused)]
    let _ = row.found == 1; // refused: error[E0308]
    row.found == Place::Loose
}
