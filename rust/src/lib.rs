#![doc = include_str!("../README.md")]
#![deny(missing_docs, unsafe_code, rust_2018_idioms, unreachable_pub)]

pub mod builder;
pub mod bytes;
pub mod diff;
pub mod digest;
mod keys;
mod list;
mod node;
pub mod register;
pub mod replica;
mod settings;
pub mod sync;
mod sys;
mod tree;
mod wire;

pub use bytes::{ByHash, HashBytes, Key};
pub use node::{Node, NodeIter, Nodes};
pub use tree::MerkleSearchTree;

use std::{alloc, error::Error, fmt};

/// The version of the library that this program is linked with, which is that of this package.
pub fn version() -> &'static str {
    sys::version()
}

/// Memory was refused, and what the call would have changed is as before.
#[derive(Debug, Clone, Copy, PartialEq, Eq)]
pub struct OutOfMemory;

impl fmt::Display for OutOfMemory {
    fn fmt(&self, f: &mut fmt::Formatter<'_>) -> fmt::Result {
        f.write_str("memory was refused")
    }
}

impl Error for OutOfMemory {}

/// Rows that don't ascend strictly by key. The tree is as before.
#[derive(Debug, Clone, Copy, PartialEq, Eq)]
pub struct NotAscending;

impl fmt::Display for NotAscending {
    fn fmt(&self, f: &mut fmt::Formatter<'_>) -> fmt::Result {
        f.write_str("the rows don't ascend strictly by key")
    }
}

impl Error for NotAscending {}

/// Bytes that aren't a list of the kind that was asked for, or one with keys that are none of the type of keys.
#[derive(Debug, Clone, Copy, PartialEq, Eq)]
pub struct Malformed;

impl fmt::Display for Malformed {
    fn fmt(&self, f: &mut fmt::Formatter<'_>) -> fmt::Result {
        f.write_str("the bytes are no such list")
    }
}

impl Error for Malformed {}

/// What a call made, or the end of the program, as Rust's own collections end it, where memory was refused.
fn granted<T>(made: Result<T, OutOfMemory>) -> T {
    made.unwrap_or_else(|OutOfMemory| alloc::handle_alloc_error(alloc::Layout::new::<u8>()))
}
