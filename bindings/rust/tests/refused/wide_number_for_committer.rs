//! A number of 64 bits is tested before it is a committer's.
use dehlbazin::*;

pub fn service(settings: &mut Settings, number: u64) -> Result<(), Refusal> {
    #[cfg(refused)]
    settings.push(number, "planner")?; // refused: error[E0308]
    settings.push(Committer::new(number)?, "planner")
}
