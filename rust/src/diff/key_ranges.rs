use super::checked;
use crate::{
    bytes::{seen_again, Key},
    list::{keyed_list, sent_list},
    sys, Malformed,
};
use std::{fmt, ops::Bound};

/// A range of keys in which two trees may differ: both bounds are in it. It borrows them.
pub struct DiffRange<'p, K: Key> {
    start: &'p K::Seen,
    end: &'p K::Seen,
}

impl<'p, K: Key> DiffRange<'p, K> {
    pub(super) fn new(start: &'p K::Seen, end: &'p K::Seen) -> Self {
        Self { start, end }
    }

    /// Its first key.
    pub fn start(&self) -> &'p K::Seen {
        self.start
    }

    /// Its last key.
    pub fn end(&self) -> &'p K::Seen {
        self.end
    }

    /// Whether a key is in it.
    pub fn contains(&self, key: impl AsRef<[u8]>) -> bool {
        (self.start.as_ref()..=self.end.as_ref()).contains(&key.as_ref())
    }

    /// The range as `BTreeMap::range` takes it.
    pub fn bounds(&self) -> (Bound<&'p K::Seen>, Bound<&'p K::Seen>) {
        (Bound::Included(self.start), Bound::Included(self.end))
    }
}

impl<K: Key> Clone for DiffRange<'_, K> {
    fn clone(&self) -> Self {
        *self
    }
}

impl<K: Key> Copy for DiffRange<'_, K> {}

impl<K: Key> PartialEq for DiffRange<'_, K> {
    fn eq(&self, other: &Self) -> bool {
        self.start.as_ref() == other.start.as_ref() && self.end.as_ref() == other.end.as_ref()
    }
}

impl<K: Key> Eq for DiffRange<'_, K> {}

impl<K: Key> fmt::Debug for DiffRange<'_, K> {
    fn fmt(&self, f: &mut fmt::Formatter<'_>) -> fmt::Result {
        f.debug_struct("DiffRange").field("start", &self.start.as_ref()).field("end", &self.end.as_ref()).finish()
    }
}

keyed_list! {
    /// Ranges of keys to ask a peer for, as the list that the peer can be sent: they ascend, and no two meet.
    ///
    /// ```
    /// use merkle_search_tree::{diff::{diff_snapshots, KeyRanges}, MerkleSearchTree};
    /// use std::collections::BTreeMap;
    ///
    /// let mut local = MerkleSearchTree::<String, u64>::default();
    /// let (mut peer, mut rows) = (MerkleSearchTree::<String, u64>::default(), BTreeMap::new());
    /// for (key, value) in [("apple", 1), ("melon", 2)] {
    ///     peer.upsert(key.into(), &value);
    ///     rows.insert(key.to_owned(), value);
    /// }
    /// let sent = diff_snapshots(&local.page_ranges(), &peer.page_ranges()).into_bytes();
    ///
    /// // the peer
    /// let asked = KeyRanges::<String>::from_bytes(sent).unwrap();
    /// let found: Vec<_> = asked.iter().flat_map(|range| rows.range::<str, _>(range.bounds())).collect();
    /// assert_eq!(found.len(), 2);
    /// ```
    KeyRanges of DiffRange by KeyRangeIter, "How many ranges there are."
}
sent_list!(KeyRanges of DiffRange by KeyRangeIter, "Goes over the ranges.", "Goes over the ranges of a list of key ranges.");

impl<K: Key> KeyRanges<K> {
    /// The list that a peer sent. Any bytes may be given: they are refused where they are no list of key ranges, or where a key in them is
    /// none of the type, a first key is above a last one, or the ranges don't ascend or two of them meet.
    pub fn from_bytes(list: impl Into<Vec<u8>>) -> Result<Self, Malformed> {
        checked::<K>(list.into(), b"MSTk", true).map(Self::of_list)
    }

    fn item((start, end, _): sys::Entry<'_>) -> DiffRange<'_, K> {
        DiffRange::new(seen_again::<K>(start), seen_again::<K>(end))
    }
}
