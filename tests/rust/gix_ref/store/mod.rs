//! The stores of references: files, and the packed table.

pub mod file;
pub mod packed;
