//! An edit list that arrives in fragments.

use crate::{entries, PackedRefs, ReceiverBytes, Refusal, Store, Transaction};

/// A receiver, in bytes that are lent for as long as it lives: it collects an edit list that arrives in fragments, and has room
/// for the longest one.
///
/// Any bytes are a fragment, none and all of a list too. They are judged when the receiver is closed: that prepares a
/// transaction, and answers as [`Store::prepare`] does with the fragments joined, however they were cut.
///
/// ```
/// use dehlbazin::{Committer, EditList, ObjectNumber, PackedRefs, PreviousValue, Receiver, RefEdit, Refusal, Setting, Store};
///
/// let mut region = vec![0; dehlbazin::REGION_SIZE];
/// let mut store = Store::start_in(&mut region, Setting::Normal)?;
/// let aisle = store.add_name("refs/heads/aisle")?;
/// let sent = EditList::of([RefEdit::update(aisle, PreviousValue::Any, ObjectNumber::new(7)?)])?.bytes();
///
/// let mut bytes = [0; dehlbazin::RECEIVER_SIZE];
/// let mut receiver = Receiver::fresh(&mut bytes)?;
/// assert_eq!(receiver.take(&sent[..20]), Ok(20));
/// assert_eq!(receiver.take(&sent[20..]), Ok(31));
/// let outcome = receiver.close(&mut store, PackedRefs::DeletionsOnly)?.commit(Committer::new(12)?)?;
/// assert_eq!(outcome.writes(), 2);
///
/// // It is fresh again, and takes the next list. One that was cut short is malformed, and is sent again.
/// assert_eq!(receiver.take(&sent[..30]), Ok(30));
/// assert_eq!(receiver.close(&mut store, PackedRefs::DeletionsOnly).err(), Some(Refusal::Malformed));
/// assert_eq!(receiver.held(), 0);
/// # Ok::<(), Refusal>(())
/// ```
///
/// No list is closed on a store that a transaction borrows:
///
/// ```compile_fail,E0499
/// # use dehlbazin::{EditList, PackedRefs, Receiver, Refusal, Store};
/// # fn service(store: &mut Store<'_>, receiver: &mut Receiver<'_>) -> Result<u64, Refusal> {
/// let transaction = store.prepare(&EditList::new(), PackedRefs::DeletionsOnly)?;
/// receiver.close(store, PackedRefs::DeletionsOnly)?; // does not compile
/// transaction.rollback()
/// # }
/// ```
pub struct Receiver<'a> {
    bytes: &'a mut ReceiverBytes,
}

/// A receiver is made.
impl<'a> Receiver<'a> {
    /// Makes a fresh receiver, which holds nothing, whatever the bytes were.
    pub fn fresh(bytes: &'a mut ReceiverBytes) -> Result<Receiver<'a>, Refusal> {
        let mut receiver = Receiver { bytes };
        receiver.make_fresh()?;
        Ok(receiver)
    }

    /// The same in bytes whose size is not known. Refused with 1 where it is another than
    /// [`RECEIVER_SIZE`](crate::RECEIVER_SIZE).
    pub fn fresh_in(bytes: &'a mut [u8]) -> Result<Receiver<'a>, Refusal> {
        Receiver::fresh(bytes.try_into().map_err(|_| Refusal::BadRegion)?)
    }

    /// Takes up the receiver that stands there, with what it holds. Refused with 1 where the bytes are no good receiver: that
    /// is one which accepted fragments leave.
    pub fn open(bytes: &'a mut ReceiverBytes) -> Result<Receiver<'a>, Refusal> {
        let mut receiver = Receiver { bytes };
        receiver.take(b"")?; // for which there is always room
        Ok(receiver)
    }

    /// The same of bytes whose size is not known.
    pub fn open_in(bytes: &'a mut [u8]) -> Result<Receiver<'a>, Refusal> {
        Receiver::open(bytes.try_into().map_err(|_| Refusal::BadRegion)?)
    }
}

/// A receiver is used.
impl Receiver<'_> {
    /// Makes it fresh. What it held is gone.
    pub fn make_fresh(&mut self) -> Result<(), Refusal> {
        entries::fresh_receiver(self.bytes).done()
    }

    /// Puts a fragment behind what is held, and says how many bytes are held now. Refused with 26 where it is longer than the
    /// room that is left. The receiver stays as it was then: it may be closed, or take a shorter one.
    pub fn take(&mut self, fragment: impl AsRef<[u8]>) -> Result<usize, Refusal> {
        entries::take_fragment(self.bytes, fragment.as_ref()).given(|answer| usize::try_from(answer.place(0)).ok())
    }

    /// Prepares the list that is held: all of its edits, or none and the reason why, as [`Store::prepare`] does. Bytes that are
    /// missing, or stand behind the list, make it malformed, which is refused with 2. The receiver is fresh then, refused or
    /// not. The transaction borrows the store and not the receiver, so the next list may arrive meanwhile.
    pub fn close<'s>(&mut self, store: &'s mut Store<'_>, packed_refs: PackedRefs) -> Result<Transaction<'s>, Refusal> {
        let row_count = store.make_rows_of(self.bytes, packed_refs)?;
        Ok(Transaction::of(store, row_count))
    }

    /// How many bytes are held, of [`EditList::MOST_BYTES`](crate::EditList::MOST_BYTES) at most.
    pub fn held(&self) -> usize {
        let [high, low, ..] = *self.bytes;
        usize::from(u16::from_be_bytes([high, low]))
    }

    /// The bytes of the receiver: to be copied, or kept in a file.
    pub fn bytes(&self) -> &ReceiverBytes {
        self.bytes
    }
}

impl std::fmt::Debug for Receiver<'_> {
    fn fmt(&self, f: &mut std::fmt::Formatter<'_>) -> std::fmt::Result {
        f.debug_struct("Receiver").field("held", &self.held()).finish_non_exhaustive()
    }
}
