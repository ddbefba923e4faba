//! The settings of a tree.
use crate::{digest::siphash::SipHasher, granted, MerkleSearchTree, OutOfMemory};
use std::num::NonZeroU8;

/// The level base if no other is given: 16.
pub(crate) const LEVEL_BASE: NonZeroU8 = NonZeroU8::MIN.saturating_add(15);

/// What the digest of a page is made of.
#[derive(Debug, Clone, Copy, PartialEq, Eq, Default)]
pub enum PageFormat {
    /// That of the crate merkle-search-tree, in which two maps may have one root hash though no two digests collide.
    #[default]
    V1,
    /// One that can be read in one way only. Take it where no peer needs root hashes of the crate.
    V2,
}

impl PageFormat {
    pub(crate) fn number(self) -> u8 {
        match self {
            Self::V1 => 1,
            Self::V2 => 2,
        }
    }
}

/// What of a key is fed to SipHash, whose digest tells the level of the key. What is fed of a value is [`HashBytes`](crate::HashBytes).
#[derive(Debug, Clone, Copy, PartialEq, Eq, Default)]
pub enum KeyFeed {
    /// The bytes of the key alone.
    #[default]
    Bytes,
    /// Its bytes and a byte `ff`, as its `Hash` feeds a `str` or a `String`.
    Text,
    /// How many bytes it has, in eight bytes, the lowest first, and its bytes, as its `Hash` feeds a `[u8]` or a `Vec<u8>`.
    Vector,
}

/// The settings of a tree. Trees that are compared have all four in common.
///
/// ```
/// use merkle_search_tree::{builder::{Builder, PageFormat}, digest::siphash::SipHasher, MerkleSearchTree};
///
/// let secret = *b"of all replicas!";
/// let mut tree: MerkleSearchTree<String, u64> =
///     Builder::default().with_hasher(SipHasher::new(&secret)).with_page_format(PageFormat::V2).build();
/// tree.upsert("kiwi".into(), &1);
/// ```
#[derive(Debug, Clone)]
pub struct Builder {
    hasher: SipHasher,
    level_base: NonZeroU8,
    page_format: PageFormat,
    key_feed: KeyFeed,
}

impl Default for Builder {
    /// [`SipHasher`] under the zero key, level base 16 and page format 1, the settings of the crate, and keys that feed their bytes alone.
    fn default() -> Self {
        Self {
            hasher: SipHasher::default(),
            level_base: LEVEL_BASE,
            page_format: PageFormat::V1,
            key_feed: KeyFeed::Bytes,
        }
    }
}

impl Builder {
    /// Hashes keys and values by this hasher. Pages are hashed under the zero key always.
    pub fn with_hasher(self, hasher: SipHasher) -> Self {
        Self { hasher, ..self }
    }

    /// Sets the level base: from 2 to 128, about one key in that many is above level 0, so that a lesser base makes more and smaller
    /// pages.
    pub fn with_level_base(self, level_base: NonZeroU8) -> Self {
        Self { level_base, ..self }
    }

    /// Sets what the digest of a page is made of.
    pub fn with_page_format(self, page_format: PageFormat) -> Self {
        Self { page_format, ..self }
    }

    /// Sets what of a key is fed. In page format 1 a tree of texts with [`KeyFeed::Text`], or of byte vectors with [`KeyFeed::Vector`], has the
    /// root hashes of the crate under its own `SipHasher`, where its values are numbers, or are given by [`ByHash`](crate::ByHash).
    ///
    /// ```
    /// use merkle_search_tree::{builder::{Builder, KeyFeed}, ByHash, MerkleSearchTree};
    ///
    /// let mut tree: MerkleSearchTree<String, ByHash<&str>> = Builder::default().with_key_feed(KeyFeed::Text).build();
    /// tree.upsert("kiwi".into(), &ByHash("great"));
    /// ```
    pub fn with_key_feed(self, key_feed: KeyFeed) -> Self {
        Self { key_feed, ..self }
    }

    /// The empty tree with these settings.
    pub fn build<K, V>(self) -> MerkleSearchTree<K, V> {
        granted(self.try_build())
    }

    /// The same; refused where memory is.
    pub fn try_build<K, V>(self) -> Result<MerkleSearchTree<K, V>, OutOfMemory> {
        let key_feed = match self.key_feed {
            KeyFeed::Bytes => 0,
            KeyFeed::Text => 1,
            KeyFeed::Vector => 2,
        };
        MerkleSearchTree::with_settings(self.hasher.key(), self.level_base.get(), self.page_format.number(), key_feed)
    }
}
