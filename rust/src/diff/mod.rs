//! Page ranges, and the difference of two lists of them.
mod key_ranges;
mod page_range;
mod snapshot;

pub use crate::Malformed;
pub use key_ranges::{DiffRange, KeyRangeIter, KeyRanges};
pub use page_range::{OwnedPageRange, PageRange};
pub use snapshot::{PageRangeSnapshot, SnapshotIter};

use crate::{bytes::Key, granted, list, sys, OutOfMemory};
use std::collections::{BTreeMap, BTreeSet, HashSet};

/// The ranges of keys to ask a peer for, by one's own page ranges and the peer's. They ascend, and no two meet.
///
/// They may hold many more keys than differ, nearly all of a tree in which one of 20,000 does, and there may be none though the root hashes
/// differ: pulls by turns go on until the root hashes are equal. Four pulls leave both sides with the same rows, where both join two values
/// of a key by one rule whatever their order, and digests don't collide. [`unshared`] asks for less.
///
/// ```
/// use merkle_search_tree::{diff::diff, MerkleSearchTree};
///
/// let [mut local, mut peer] = [(); 2].map(|()| MerkleSearchTree::default());
/// local.upsert("donkey", &42);
/// peer.upsert("bananas", &42);
/// peer.upsert("plátanos", &42);
/// local.root_hash();
/// peer.root_hash();
/// let asked = diff(local.serialise_page_ranges().unwrap(), peer.serialise_page_ranges().unwrap());
/// assert_eq!(asked.len(), 1);
/// assert_eq!((asked[0].start(), asked[0].end()), ("bananas", "plátanos"));
/// ```
///
/// The two sides' types of keys may be two, where keys are read again as one type, such as `&str` and `String`. The page ranges are
/// copied into lists; [`diff_snapshots`] takes those that are lists already.
pub fn diff<'p, 'a: 'p, T, U, L, K>(local: T, peer: U) -> Vec<DiffRange<'p, K>>
where
    T: IntoIterator<Item = PageRange<'a, L>>,
    U: IntoIterator<Item = PageRange<'p, K>>,
    L: Key<Seen = K::Seen> + 'a,
    K: Key + 'p,
{
    let mut keys: Vec<&'p K::Seen> = Vec::new();
    let local = local.into_iter().inspect(|range| keys.extend([range.start(), range.end()])).collect();
    let peer = peer.into_iter().inspect(|range| keys.extend([range.start(), range.end()])).collect();
    let asked = diff_snapshots(&local, &peer);
    let bounds: BTreeSet<&[u8]> =
        asked.iter().flat_map(|range| [range.start(), range.end()]).map(AsRef::as_ref).collect();
    let found: BTreeMap<&[u8], &'p K::Seen> =
        keys.into_iter().filter(|key| bounds.contains(key.as_ref())).map(|key| (key.as_ref(), key)).collect();
    asked.iter().map(|range| DiffRange::new(found[range.start().as_ref()], found[range.end().as_ref()])).collect()
}

/// The same of two lists: what a peer is sent.
///
/// ```
/// use merkle_search_tree::{diff::{diff_snapshots, PageRangeSnapshot}, MerkleSearchTree};
///
/// let mut local = MerkleSearchTree::<String, u64>::default();
/// let sent = b"MSTp\0\0\0\0\0\0\0\0".to_vec(); // a peer without keys
/// let peer = PageRangeSnapshot::<String>::from_bytes(sent).unwrap();
/// assert!(diff_snapshots(&local.page_ranges(), &peer).is_empty());
/// ```
pub fn diff_snapshots<L: Key<Seen = K::Seen>, K: Key>(
    local: &PageRangeSnapshot<L>,
    peer: &PageRangeSnapshot<K>,
) -> KeyRanges<K> {
    granted(try_diff_snapshots(local, peer))
}

/// The same; refused where memory is.
pub fn try_diff_snapshots<L: Key<Seen = K::Seen>, K: Key>(
    local: &PageRangeSnapshot<L>,
    peer: &PageRangeSnapshot<K>,
) -> Result<KeyRanges<K>, OutOfMemory> {
    match sys::difference(local.as_bytes(), peer.as_bytes()) {
        Ok(list) => Ok(KeyRanges::of_list(list)),
        Err(sys::Refused::Memory) => Err(OutOfMemory),
        Err(refused) => unreachable!("two lists of page ranges were given: {refused:?}"),
    }
}

/// The ranges of the peer's keys outside of the pages that both trees have.
///
/// A page that both have has the same rows on both sides, while digests don't collide. So the peer has no row elsewhere that is new, and one
/// pull of these ranges brings all: one each way leaves both sides with the same rows. Of a page that differs they hold the keys on it and
/// the bounds of the pages below it that both have.
///
/// ```
/// use merkle_search_tree::{diff::unshared, MerkleSearchTree};
///
/// let keys = || (0..20_000).map(|i| format!("{i:05}"));
/// let mut ours: MerkleSearchTree<String, u64> = keys().map(|key| (key, 1)).collect();
/// let mut theirs = ours.clone();
/// theirs.upsert("12345".into(), &2);
/// let asked = unshared(&ours.page_ranges(), &theirs.page_ranges());
/// assert!(asked.iter().any(|range| range.contains("12345")));
/// assert!(keys().filter(|key| asked.iter().any(|range| range.contains(key))).count() < 500);
/// ```
pub fn unshared<L: Key<Seen = K::Seen>, K: Key>(
    local: &PageRangeSnapshot<L>,
    peer: &PageRangeSnapshot<K>,
) -> KeyRanges<K> {
    let mut found = list::Writer::new(b"MSTk");
    if let Some((first, end, _)) = peer.iter().next().map(entry) {
        let shared: HashSet<_> = local.iter().map(entry).collect();
        let mut start = first;
        for page in peer.iter().map(entry).filter(|page| page.0 < page.1 && shared.contains(page)) {
            if start < page.0 {
                found.push(start, page.0, &[]);
            }
            if start <= page.0 {
                start = page.1;
            }
        }
        if start < end || start == first {
            found.push(start, end, &[]);
        }
    }
    KeyRanges::of_list(found.into_bytes())
}

/// The bytes of a peer, if they are a list with this mark of ranges between keys of the type, none of which ends before it starts; and if `ascend`, each
/// starts after the end of the one before.
fn checked<K: Key>(list: Vec<u8>, mark: &[u8; 4], ascend: bool) -> Result<Vec<u8>, Malformed> {
    if !list.starts_with(mark) {
        return Err(Malformed);
    }
    let (mut at, mut before) = (0, None);
    while let Some((start, end, _)) = sys::next_range(&list, &mut at).map_err(|_| Malformed)? {
        let is_behind = !ascend || before.is_none_or(|before| before < start);
        if !is_behind || start > end || K::seen(start).is_none() || K::seen(end).is_none() {
            return Err(Malformed);
        }
        before = Some(end);
    }
    Ok(list)
}

/// The bytes of a page range.
fn entry<'a, K: Key>(range: PageRange<'a, K>) -> (&'a [u8], &'a [u8], [u8; 16]) {
    (range.start().as_ref(), range.end().as_ref(), *range.hash().as_bytes())
}
