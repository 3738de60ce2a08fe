//! What the tests and the benchmark share: the calls of the proved library, the plain Rust that they are compared with,
//! files to try them on, and how time and stack are measured.

#![deny(warnings)]

pub mod boundary;
pub mod comparison;
pub mod deepest;
pub mod edits;
pub mod ffi;
pub mod hostile;
pub mod index_file;
pub mod inputs;
pub mod kind;
pub mod lent;
pub mod listing;
pub mod opponent;
pub mod plain;
pub mod random;
pub mod replies;
pub mod stack;
pub mod tails;
pub mod timing;
pub mod vectors;
