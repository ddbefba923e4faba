use super::{checked, OwnedPageRange, PageRange};
use crate::{
    bytes::Key,
    list::{self, keyed_list, sent_list},
    sys, Malformed,
};
use std::fmt;

const MARK: &[u8; 4] = b"MSTp";

keyed_list! {
    /// The page ranges of a tree at one time, as the list that a peer can be sent.
    ///
    /// ```
    /// use merkle_search_tree::{diff::PageRangeSnapshot, MerkleSearchTree};
    ///
    /// let mut tree = MerkleSearchTree::<String, u64>::default();
    /// tree.upsert("kiwi".into(), &1);
    /// let sent = tree.page_ranges().into_bytes();
    ///
    /// let came = PageRangeSnapshot::<String>::from_bytes(sent).unwrap();
    /// assert_eq!(came.iter().map(|range| (range.start(), range.end())).collect::<Vec<_>>(), [("kiwi", "kiwi")]);
    /// assert_eq!(came.iter().next().unwrap().hash().as_bytes(), tree.root_hash().as_bytes());
    /// ```
    PageRangeSnapshot of PageRange by SnapshotIter, "How many page ranges there are."
}
sent_list!(PageRangeSnapshot of PageRange by SnapshotIter, "Goes over the page ranges.", "Goes over the page ranges of a snapshot.");

impl<K: Key> PageRangeSnapshot<K> {
    /// The list that a peer sent. Any bytes may be given: they are refused where they are no list of page ranges, or where a key in
    /// them is none of the type, or a first key is above a last one.
    pub fn from_bytes(list: impl Into<Vec<u8>>) -> Result<Self, Malformed> {
        checked::<K>(list.into(), MARK, false).map(Self::of_list)
    }

    fn item((start, end, hash): sys::Entry<'_>) -> PageRange<'_, K> {
        PageRange::of_entry(start, end, *hash.expect("a page range has a digest"))
    }
}

impl<'a, K: Key + 'a> FromIterator<PageRange<'a, K>> for PageRangeSnapshot<K> {
    fn from_iter<T: IntoIterator<Item = PageRange<'a, K>>>(ranges: T) -> Self {
        let mut list = list::Writer::new(MARK);
        for range in ranges {
            list.push(range.start().as_ref(), range.end().as_ref(), range.hash().as_bytes());
        }
        Self::of_list(list.into_bytes())
    }
}

impl<K: Key> FromIterator<OwnedPageRange<K>> for PageRangeSnapshot<K> {
    fn from_iter<T: IntoIterator<Item = OwnedPageRange<K>>>(ranges: T) -> Self {
        let mut list = list::Writer::new(MARK);
        for range in ranges {
            let range = range.as_page_range();
            list.push(range.start().as_ref(), range.end().as_ref(), range.hash().as_bytes());
        }
        Self::of_list(list.into_bytes())
    }
}

impl<'a, K: Key> From<Vec<PageRange<'a, K>>> for PageRangeSnapshot<K> {
    fn from(ranges: Vec<PageRange<'a, K>>) -> Self {
        ranges.into_iter().collect()
    }
}

impl<K: Key> From<Vec<OwnedPageRange<K>>> for PageRangeSnapshot<K> {
    fn from(ranges: Vec<OwnedPageRange<K>>) -> Self {
        ranges.into_iter().collect()
    }
}
