//! A delete has no message.
use dehlbazin::*;

pub fn service(expected: PreviousValue) -> Change {
    #[cfg(refused)]
    let _ = Change::Delete { expected, log: RefLog::Only, message: Message(3) }; // refused: error[E0559]
    Change::Delete { expected, log: RefLog::Only }
}
