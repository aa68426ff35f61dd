//! How a commit ended is looked at.
#![deny(unused_must_use)]
use dehlbazin::*;

pub fn service(transaction: Transaction<'_>, committer: Committer) -> Result<(), Refusal> {
    #[cfg(not(refused))]
    let _ = transaction.commit(committer)?;
    #[cfg(refused)]
    transaction.commit(committer)?; // refused: error: unused
    Ok(())
}
