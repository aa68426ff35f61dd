//! A prepared transaction.

use crate::{Committer, EditList, Lockable, NameNumber, Outcome, PackedRefs, Refusal, Store, View, EVERY_WRITE};

/// A prepared transaction. It borrows its store alone, and rolls back when it is dropped, unless it was committed.
///
/// ```
/// use dehlbazin::{Committer, EditList, ObjectNumber, PackedRefs, PreviousValue, RefEdit, Setting, Store, Target};
///
/// let mut region = vec![0; dehlbazin::REGION_SIZE];
/// let mut store = Store::start_in(&mut region, Setting::Normal)?;
/// let aisle = store.add_name("refs/heads/aisle")?;
/// let layout = Target::Object(ObjectNumber::new(4103)?);
/// let list = EditList::of([RefEdit::update(aisle, PreviousValue::MustNotExist, layout)])?;
///
/// drop(store.prepare(&list, PackedRefs::DeletionsOnly)?);
/// assert_eq!(store.read_name(aisle)?.target, None); // nothing came of it, and its locks are free
///
/// let outcome = store.prepare(&list, PackedRefs::DeletionsOnly)?.commit(Committer::new(12)?)?;
/// assert_eq!(outcome.to_string(), "2 writes");
/// assert_eq!(store.read_name(aisle)?.target, Some(layout));
/// # Ok::<(), dehlbazin::Refusal>(())
/// ```
///
/// One store has one transaction at a time:
///
/// ```compile_fail,E0499
/// # use dehlbazin::{EditList, PackedRefs, Setting, Store};
/// # let mut region = vec![0; dehlbazin::REGION_SIZE];
/// # let mut store = Store::start_in(&mut region, Setting::Normal)?;
/// let first = store.prepare(&EditList::new(), PackedRefs::DeletionsOnly)?;
/// let second = store.prepare(&EditList::new(), PackedRefs::DeletionsOnly)?; // does not compile
/// first.rollback()?;
/// # Ok::<(), dehlbazin::Refusal>(())
/// ```
#[must_use = "a transaction that is dropped is rolled back"]
pub struct Transaction<'s> {
    store: Store<'s>,
    row_count: u64,
    over: bool,
}

impl<'s> Transaction<'s> {
    /// Prepares the edits: all of them, or none and the reason why.
    pub fn prepare(store: &'s mut Store<'_>, edits: &EditList, packed_refs: PackedRefs) -> Result<Transaction<'s>, Refusal> {
        let row_count = store.make_rows(edits, packed_refs)?;
        Ok(Transaction::of(store, row_count))
    }

    /// That which was just prepared in the store, with so many rows.
    pub(crate) fn of(store: &'s mut Store<'_>, row_count: u64) -> Transaction<'s> {
        Transaction { store: store.reborrow(), row_count, over: false }
    }

    /// How many rows the edits became.
    pub fn row_count(&self) -> u64 {
        self.row_count
    }

    /// The store, to be read: its rows too.
    pub fn store(&self) -> &Store<'s> {
        &self.store
    }

    /// Makes every write. Without a committer (`None`) it stops before the first log line.
    pub fn commit(self, committer: impl Into<Option<Committer>>) -> Result<Outcome, Refusal> {
        self.commit_within(committer, EVERY_WRITE)
    }

    /// Makes as many writes as are allowed. The transaction is over, stopped or not: what is still wanted is prepared anew.
    pub fn commit_within(mut self, committer: impl Into<Option<Committer>>, allowance: u64) -> Result<Outcome, Refusal> {
        let outcome = self.store.commit_within(committer, allowance)?;
        self.over = true;
        Ok(outcome)
    }

    /// Gives it up, as dropping does, and says how many rows that were.
    pub fn rollback(mut self) -> Result<u64, Refusal> {
        let rows = self.store.rollback()?;
        self.over = true;
        Ok(rows)
    }

    /// Leaves it prepared in the region, for [`Store::commit`] or [`Store::rollback`] to end, here or in another process.
    pub fn leave_prepared(mut self) {
        self.over = true;
    }
}

/// What others may do while a transaction is prepared.
impl Transaction<'_> {
    /// As [`Store::add_name`].
    pub fn add_name(&mut self, name: impl AsRef<[u8]>) -> Result<NameNumber, Refusal> {
        self.store.add_name(name)
    }

    /// As [`Store::place_lock`]. A lock that the transaction holds is not free.
    pub fn place_lock(&mut self, what: impl Into<Lockable>) -> Result<(), Refusal> {
        self.store.place_lock(what)
    }

    /// As [`Store::lift_lock`]. A lock that the transaction holds is not foreign.
    pub fn lift_lock(&mut self, what: impl Into<Lockable>) -> Result<(), Refusal> {
        self.store.lift_lock(what)
    }
}

impl Drop for Transaction<'_> {
    /// Rollback refuses nothing of a good region, which a store's is.
    fn drop(&mut self) {
        if !self.over {
            let _ = self.store.rollback();
        }
    }
}

impl<'t> From<&'t Transaction<'_>> for View<'t> {
    fn from(transaction: &'t Transaction<'_>) -> View<'t> {
        transaction.store.view()
    }
}

impl std::fmt::Debug for Transaction<'_> {
    fn fmt(&self, f: &mut std::fmt::Formatter<'_>) -> std::fmt::Result {
        f.debug_struct("Transaction").field("row_count", &self.row_count).finish_non_exhaustive()
    }
}
