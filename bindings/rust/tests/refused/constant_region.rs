//! A store changes its region, so one that can only be read has a view.
use dehlbazin::*;

pub fn service(region: &Region) -> bool {
    #[cfg(refused)]
    let _ = Store::open(region); // refused: error[E0308]
    View::open(region).is_ok()
}
