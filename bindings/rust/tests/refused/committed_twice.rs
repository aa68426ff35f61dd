//! A transaction ends once.
use dehlbazin::*;

pub fn service(transaction: Transaction<'_>, committer: Committer) -> Result<Outcome, Refusal> {
    #[cfg(not(refused))]
    return transaction.commit(committer);
    #[cfg(refused)]
    {
        let _ = transaction.commit(committer)?;
        transaction.commit(committer) // refused: error[E0382]
    }
}
