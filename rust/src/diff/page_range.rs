use crate::{
    bytes::{seen_again, Key},
    digest::PageDigest,
};
use std::{fmt, marker::PhantomData};

/// The range of keys of a page and of all below it, and the page's digest. It borrows its keys.
pub struct PageRange<'a, K: Key> {
    start: &'a K::Seen,
    end: &'a K::Seen,
    hash: PageDigest,
}

impl<'a, K: Key> PageRange<'a, K> {
    /// The page range of these keys and this digest, as a peer may have sent them.
    ///
    /// # Panics
    ///
    /// Where `start` is above `end` in the order of bytes. [`PageRange::try_new`] doesn't.
    pub fn new(start: &'a K, end: &'a K, hash: PageDigest) -> Self {
        assert!(start.as_ref() <= end.as_ref(), "assertion failed: start <= end");
        Self { start: seen_again::<K>(start.as_ref()), end: seen_again::<K>(end.as_ref()), hash }
    }

    /// The same; `None` where `start` is above `end`.
    pub fn try_new(start: &'a K, end: &'a K, hash: PageDigest) -> Option<Self> {
        (start.as_ref() <= end.as_ref()).then(|| Self::new(start, end, hash))
    }

    /// The page range of an entry of a list, whose keys were found to be keys.
    pub(super) fn of_entry(start: &'a [u8], end: &'a [u8], hash: [u8; 16]) -> Self {
        Self { start: seen_again::<K>(start), end: seen_again::<K>(end), hash: PageDigest::new(hash) }
    }

    /// Its first key.
    pub fn start(&self) -> &'a K::Seen {
        self.start
    }

    /// Its last key.
    pub fn end(&self) -> &'a K::Seen {
        self.end
    }

    /// The digest of its page.
    pub fn hash(&self) -> &PageDigest {
        &self.hash
    }

    /// The same, by value.
    pub fn into_hash(self) -> PageDigest {
        self.hash
    }

    /// Whether the range of `other` is within this one.
    pub fn is_superset_of(&self, other: &Self) -> bool {
        self.start.as_ref() <= other.start.as_ref() && other.end.as_ref() <= self.end.as_ref()
    }
}

impl<K: Key> Clone for PageRange<'_, K> {
    fn clone(&self) -> Self {
        *self
    }
}

impl<K: Key> Copy for PageRange<'_, K> {}

impl<K: Key> PartialEq for PageRange<'_, K> {
    fn eq(&self, other: &Self) -> bool {
        self.start.as_ref() == other.start.as_ref()
            && self.end.as_ref() == other.end.as_ref()
            && self.hash == other.hash
    }
}

impl<K: Key> Eq for PageRange<'_, K> {}

impl<K: Key> fmt::Debug for PageRange<'_, K> {
    fn fmt(&self, f: &mut fmt::Formatter<'_>) -> fmt::Result {
        f.debug_struct("PageRange")
            .field("start", &self.start.as_ref())
            .field("end", &self.end.as_ref())
            .field("hash", &self.hash)
            .finish()
    }
}

impl<K: Key> fmt::Display for PageRange<'_, K>
where
    K::Seen: fmt::Display,
{
    fn fmt(&self, f: &mut fmt::Formatter<'_>) -> fmt::Result {
        write!(f, "({}, {})", self.start, self.end)
    }
}

/// A page range that has its keys.
#[derive(Clone, PartialEq, Eq)]
pub struct OwnedPageRange<K> {
    start: Box<[u8]>,
    end: Box<[u8]>,
    hash: PageDigest,
    key: PhantomData<fn() -> K>,
}

impl<K: Key> OwnedPageRange<K> {
    /// The page range of these keys and this digest.
    ///
    /// # Panics
    ///
    /// Where `start` is above `end` in the order of bytes.
    pub fn new(start: K, end: K, hash: PageDigest) -> Self {
        PageRange::new(&start, &end, hash).into()
    }

    /// The page range, borrowed.
    pub fn as_page_range(&self) -> PageRange<'_, K> {
        PageRange::of_entry(&self.start, &self.end, *self.hash.as_bytes())
    }
}

impl<K: Key> From<PageRange<'_, K>> for OwnedPageRange<K> {
    fn from(range: PageRange<'_, K>) -> Self {
        Self { start: range.start.as_ref().into(), end: range.end.as_ref().into(), hash: range.hash, key: PhantomData }
    }
}

impl<K: Key> fmt::Debug for OwnedPageRange<K> {
    fn fmt(&self, f: &mut fmt::Formatter<'_>) -> fmt::Result {
        self.as_page_range().fmt(f)
    }
}
