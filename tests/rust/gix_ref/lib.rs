//! gix-ref 0.67.1's transactions: six of its files, unchanged, over stand-ins for all that they import. The six files are
//!
//! - `src/target.rs`
//! - `src/transaction/mod.rs` and `src/transaction/ext.rs`
//! - `src/store/file/transaction/mod.rs`, `prepare.rs` and `commit.rs` beside it
//!
//! and are found through `target/rust/source`, a link that `tests/rust/build` makes. The modules are nested as in gix-ref,
//! since the six files name each other by these paths. Everything in this directory is a stand-in.

extern crate counted as std;

mod errors;
mod names;
mod reference;
mod types;

pub use names::{Category, FullName, FullNameRef, PartialNameRef};
pub use reference::Reference;
pub use types::{Kind, Target, TargetRef};

#[path = "../../../target/rust/source/src/target.rs"]
mod target;

#[path = "../../../target/rust/source/src/transaction/mod.rs"]
pub mod transaction;

#[path = "store/mod.rs"]
mod store_impl;
pub use store_impl::{file, packed};
