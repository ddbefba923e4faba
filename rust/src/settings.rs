//! What the digests of a side rest on: peers have all of it in common.
use crate::{builder::PageFormat, digest::siphash::SipHasher, sys, OutOfMemory};
use std::num::NonZeroU8;

/// How many bytes the first question of a catch-up has that tells the digest of no key.
const WITHOUT_KEY: usize = 6;

/// The key of SipHash, the level base and the page format.
pub(crate) struct Settings {
    pub(crate) hasher: SipHasher,
    pub(crate) level_base: NonZeroU8,
    pub(crate) page_format: PageFormat,
}

impl Settings {
    /// A side without keys.
    pub(crate) fn side(&self) -> Result<sys::Side, OutOfMemory> {
        sys::Side::new(self.hasher.key(), self.level_base.get(), self.page_format.number())
    }

    /// The first question of a catch-up, which tells all settings: the key of SipHash by the digest of a key. A side without keys takes the
    /// empty one, as a side does that has it alone.
    pub(crate) fn told(&self, question: Vec<u8>) -> Result<Vec<u8>, OutOfMemory> {
        if question.len() > WITHOUT_KEY {
            return Ok(question);
        }
        let mut other = self.side()?;
        other.set(&[], &[])?;
        other.ask()
    }
}
