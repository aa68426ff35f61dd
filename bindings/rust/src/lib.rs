//! Dehlbazin: the refs of a site's aisle layouts, in one region of bytes that the caller lends.
//!
//! This is a safe API over the archive `libdehlbazin.a`, with the names of gix-ref's transactions. docs/SPEC.md says what the
//! calls mean.
//!
//! ```
//! use dehlbazin::{Committer, EditList, ObjectNumber, PackedRefs, Place, PreviousValue, RefEdit, Setting, Store, Target};
//!
//! let mut region = Box::new([0; dehlbazin::REGION_SIZE]);
//! let mut store = Store::start(&mut region, Setting::Normal)?;
//! let head = store.add_name("HEAD")?;
//! let aisle = store.add_name("refs/heads/aisle")?;
//! store.load_loose(head, Target::Symbolic(aisle))?;
//!
//! // HEAD leads to the aisle: its layout is set, if it has none.
//! let layout = Target::Object(ObjectNumber::new(7)?);
//! let list = EditList::of([RefEdit::update(head, PreviousValue::MustNotExist, layout).through_links()])?;
//! let outcome = store.prepare(&list, PackedRefs::DeletionsOnly)?.commit(Committer::new(12)?)?;
//! assert_eq!(outcome.writes(), 3); // a log line of HEAD, one of the aisle, and its value
//! let found = store.read_name(aisle)?;
//! assert_eq!((found.target, found.place), (Some(layout), Place::Loose));
//! # Ok::<(), dehlbazin::Refusal>(())
//! ```
//!
//! - Each call gives a [`Result`], with a [`Refusal`] that holds what comes with its number. Nothing here panics. A commit that
//!   is stopped on its way is no refusal: it is an [`Outcome`], with the number of writes that were made.
//! - A [`Store`] keeps no copy of anything: each call reads the region, and tests it whole first.
//! - What a name reads is [`Found`] in a [`Place`]: loose, packed, or neither, and perhaps behind a loose value that is broken.
//!   A [`Row`] has the place of what prepare found.
//! - What another program holds has a foreign lock: it is placed on a [`Lockable`], a name or the packed table.
//! - The packed table has a text, in the lines of git's packed-refs file: a [`View`] writes it, and [`Store::read_packed`] puts
//!   what a text says in the place of the whole table. That is a backup and its return.
//! - A list that arrives in fragments is collected by a [`Receiver`]. Closing it prepares the list, as if it had come whole.
//! - What a site keeps between runs is a record of its own: [`Settings`] are written to one, a [`SettingsView`] reads it, and
//!   a store is started with it.
//! - What no call can test, the borrow rules see to: that what is lent is there, that nothing overlaps, and that calls on one
//!   region or on one receiver come one after the other. A [`NameNumber`] is no [`ObjectNumber`], and no number is shortened.
#![deny(missing_docs)]
#![deny(unsafe_code)] // but for entries
#![deny(unsafe_op_in_unsafe_fn)]

mod answer;
mod edit;
#[allow(unsafe_code)]
mod entries;
mod found;
mod lockable;
mod numbers;
mod receiver;
mod refusal;
mod settings;
mod store;
mod target;
mod transaction;
mod view;
mod walk;
mod words;

pub use edit::{Change, EditList, LogChange, PackedRefs, PreviousValue, RefEdit, RefLog};
pub use entries::{PACKED_TEXT_MOST_BYTES, RECEIVER_SIZE, REGION_SIZE};
pub use found::{Found, Place};
pub use lockable::Lockable;
pub use numbers::{Committer, Message, NameNumber, ObjectNumber, Site};
pub use receiver::Receiver;
pub use refusal::Refusal;
pub use settings::{Committers, NamedCommitter, Settings, SettingsView, Version};
pub use store::{Outcome, Setting, Store, EVERY_WRITE};
pub use target::{Loose, Target};
pub use transaction::Transaction;
pub use view::{Line, Row, View};
pub use walk::{Lines, Name, Names, Rows};
pub use words::InWords;

/// A region of the right size. Bytes whose size is not known go to [`Store::open_in`] and [`Store::start_in`].
pub type Region = [u8; REGION_SIZE];

/// The bytes of a receiver, of the right size. Those whose size is not known go to [`Receiver::open_in`] and
/// [`Receiver::fresh_in`].
pub type ReceiverBytes = [u8; RECEIVER_SIZE];

/// The version of the interface that this crate was written for, as `DEHLBAZIN_VERSION` of include/dehlbazin.h has it: 0.10.0.
pub const VERSION: u32 = 10_000;
