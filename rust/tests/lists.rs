//! Lists that a peer may send, and differences of lists.
use merkle_search_tree::{
    diff::{diff, diff_snapshots, unshared, DiffRange, KeyRanges, OwnedPageRange, PageRange, PageRangeSnapshot},
    digest::PageDigest,
    Malformed, MerkleSearchTree,
};
use std::collections::BTreeMap;

type Key = [u8; 8];

fn key(text: &str) -> Key {
    text.parse::<u64>().unwrap().to_be_bytes()
}

/// The page ranges of a text as `2-15:1 2-6:2`.
fn page_ranges(text: &str) -> Vec<OwnedPageRange<Key>> {
    text.split_whitespace()
        .map(|range| {
            let (keys, digest) = range.split_once(':').unwrap();
            let (start, end) = keys.split_once('-').unwrap();
            OwnedPageRange::new(key(start), key(end), PageDigest::new([digest.parse().unwrap(); 16]))
        })
        .collect()
}

fn text<'a>(ranges: impl IntoIterator<Item = DiffRange<'a, Key>>) -> String {
    let number = |key: &Key| u64::from_be_bytes(*key);
    let texts: Vec<_> =
        ranges.into_iter().map(|range| format!("{}-{}", number(range.start()), number(range.end()))).collect();
    texts.join(" ")
}

/// The lines of a table: the page ranges of both sides, and the text of the ranges to ask for.
fn differences(table: &str) -> impl Iterator<Item = ([Vec<OwnedPageRange<Key>>; 2], &str)> {
    table.lines().filter(|line| !line.starts_with('#')).map(|line| {
        let parts: Vec<_> = line.split('|').collect();
        ([parts[0], parts[1]].map(page_ranges), parts[2].trim())
    })
}

#[test]
fn differences_are_those_of_the_crate() {
    let mut lines = 0;
    for ([local, peer], answer) in differences(include_str!("diffs.txt")) {
        let asked =
            diff(local.iter().map(OwnedPageRange::as_page_range), peer.iter().map(OwnedPageRange::as_page_range));
        assert_eq!(text(asked), answer, "line {lines}");
        let asked = diff_snapshots(&PageRangeSnapshot::from(local.clone()), &PageRangeSnapshot::from(peer.clone()));
        assert_eq!(text(&asked), answer, "line {lines}");
        lines += 1;
    }
    assert_eq!(lines, 117);
}

type Rows = BTreeMap<String, u64>;

/// The join of two sides' rows: of two values the greater stays.
fn joined<'a>(ours: &Rows, came: impl IntoIterator<Item = (&'a String, &'a u64)>) -> Rows {
    let mut rows = ours.clone();
    for (key, value) in came {
        let held = rows.entry(key.clone()).or_default();
        *held = *value.max(held);
    }
    rows
}

/// What a side has once the other sent its rows outside of the pages that both have.
fn pulled(ours: &Rows, theirs: &Rows) -> Rows {
    let [local, peer] = [ours, theirs].map(|rows| MerkleSearchTree::from_iter(rows.clone()).page_ranges());
    let asked = unshared(&local, &peer);
    joined(ours, asked.iter().flat_map(|range| theirs.range::<str, _>(range.bounds())))
}

#[test]
fn one_pull_each_way_outside_of_shared_pages_brings_all() {
    let rows = |skipped: u64, changed: u64| -> Rows {
        (0..2000).filter(|i| i % skipped != 1).map(|i| (format!("key{i:04}"), u64::from(i % changed == 2))).collect()
    };
    for (left, right) in [(2, 3), (3, 2), (7, 100), (100, 7), (1000, 999), (2000, 2000), (2000, 1)] {
        let (left, right) = (rows(left, right), rows(right, left));
        let wanted = joined(&left, &right);
        assert_eq!((pulled(&left, &right), pulled(&right, &left)), (wanted.clone(), wanted));
    }
    assert_eq!(pulled(&Rows::new(), &rows(7, 7)), rows(7, 7));
    assert_eq!(pulled(&rows(7, 7), &Rows::new()), rows(7, 7));
}

#[test]
fn the_two_sides_may_have_two_types_of_keys() {
    let mut local = MerkleSearchTree::<&'static str, ()>::default();
    let peer = ["a", "b", "c"].map(|key| (key.to_owned(), ()));
    let mut peer: MerkleSearchTree<String, ()> = peer.into_iter().collect();
    local.root_hash();
    peer.root_hash();
    let asked = diff(local.serialise_page_ranges().unwrap(), peer.serialise_page_ranges().unwrap());
    assert_eq!(asked.iter().map(|range| (range.start(), range.end())).collect::<Vec<_>>(), [("a", "c")]);
    assert!(asked[0].contains("bananas") && !asked[0].contains("cherry"));
}

#[test]
#[should_panic(expected = "start <= end")]
fn a_range_that_ends_before_it_begins() {
    PageRange::new(&[9], &[3], PageDigest::new([0; 16]));
}

#[test]
fn try_new_refuses_it() {
    assert_eq!(PageRange::try_new(&[9], &[3], PageDigest::new([0; 16])), None);
    let range = PageRange::try_new(&"a", &"ab", PageDigest::new([7; 16])).unwrap();
    assert_eq!((range.to_string(), range.into_hash()), ("(a, ab)".into(), PageDigest::new([7; 16])));
}

/// The tree of four keys, of which one is no text.
fn four_keys() -> MerkleSearchTree<Vec<u8>, ()> {
    [&b"plain"[..], b"\xff is no text", b"", b"\0"].into_iter().map(|key| (key.to_vec(), ())).collect()
}

#[test]
fn what_is_no_list_of_page_ranges_is_malformed() {
    let bytes = four_keys().page_ranges().into_bytes();
    assert!(PageRangeSnapshot::<Vec<u8>>::from_bytes(bytes.clone()).is_ok());
    assert_eq!(PageRangeSnapshot::<String>::from_bytes(bytes.clone()).unwrap_err(), Malformed);
    for cut in 0..bytes.len() {
        assert_eq!(PageRangeSnapshot::<Vec<u8>>::from_bytes(&bytes[..cut]), Err(Malformed));
    }
    assert_eq!(PageRangeSnapshot::<Vec<u8>>::from_bytes([&bytes[..], b"\0"].concat()), Err(Malformed));
    assert_eq!(PageRangeSnapshot::<Vec<u8>>::from_bytes(*b"MSTk\0\0\0\0\0\0\0\0"), Err(Malformed));
    let front = |mark: &[u8; 4], first: u8, last: u8| {
        [&mark[..], &[1, 0, 0, 0, 0, 0, 0, 0], &[1, 0, 0, 0, 0, 0, 0, 0, first], &[1, 0, 0, 0, 0, 0, 0, 0, last]]
            .concat()
    };
    let digest = [0; 16];
    assert!(PageRangeSnapshot::<String>::from_bytes([&front(b"MSTp", 3, 3)[..], &digest].concat()).is_ok());
    assert_eq!(PageRangeSnapshot::<String>::from_bytes([&front(b"MSTp", 4, 3)[..], &digest].concat()), Err(Malformed));
    assert!(KeyRanges::<String>::from_bytes(front(b"MSTk", 3, 3)).is_ok());
    assert_eq!(KeyRanges::<String>::from_bytes(front(b"MSTk", 4, 3)), Err(Malformed));
}

/// A list of key ranges, of keys of one byte.
fn key_ranges(ranges: &[(u8, u8)]) -> Vec<u8> {
    let mut list = [&b"MSTk"[..], &(ranges.len() as u64).to_le_bytes()].concat();
    for (first, last) in ranges {
        for key in [first, last] {
            list.extend_from_slice(&[1, 0, 0, 0, 0, 0, 0, 0, *key]);
        }
    }
    list
}

#[test]
fn key_ranges_that_dont_ascend_are_malformed() {
    for (ranges, fine) in [
        (&[][..], true),
        (&[(1, 1), (2, 9)], true),
        (&[(1, 2), (2, 9)], false),
        (&[(3, 4), (1, 2)], false),
        (&[(1, 1), (1, 1)], false),
        (&[(2, 1)], false),
        (&[(1, 200)], false), // 200 is no text
    ] {
        let list = key_ranges(ranges);
        assert_eq!(KeyRanges::<String>::from_bytes(list.clone()).is_ok(), fine, "{ranges:?}");
        for cut in 0..list.len() {
            assert!(KeyRanges::<String>::from_bytes(&list[..cut]).is_err());
        }
    }
}

fn draws(mut state: u64) -> impl FnMut() -> u64 {
    move || {
        state ^= state << 13;
        state ^= state >> 7;
        state ^= state << 17;
        state
    }
}

/// The bytes with one to three of them altered, in each of so many rounds.
fn altered(bytes: &[u8], rounds: u64) -> impl Iterator<Item = Vec<u8>> + '_ {
    let mut draw = draws(88172645463325252);
    (0..rounds).map(move |round| {
        let mut altered = bytes.to_vec();
        for _ in 0..1 + round % 3 {
            let drawn = draw();
            let at = drawn as usize % altered.len();
            altered[at] = (drawn >> 32) as u8;
        }
        altered
    })
}

#[test]
fn altered_lists_are_malformed_or_lists() {
    let own = four_keys().page_ranges();
    let mut lists = 0;
    for bytes in altered(own.as_bytes(), 100_000) {
        let Ok(list) = PageRangeSnapshot::<Vec<u8>>::from_bytes(bytes) else { continue };
        assert!(list.iter().all(|range| range.start() <= range.end()));
        assert_eq!(list.iter().count(), list.len());
        for asked in [diff_snapshots(&own, &list), unshared(&own, &list)] {
            assert_eq!(KeyRanges::<Vec<u8>>::from_bytes(asked.as_bytes()), Ok(asked));
        }
        lists += 1;
    }
    assert!(lists > 10_000);
}

#[test]
fn altered_key_ranges_are_malformed_or_ascend() {
    let mut lists = 0;
    for bytes in altered(&key_ranges(&[(1, 1), (40, 90), (91, 127)]), 100_000) {
        let Ok(list) = KeyRanges::<String>::from_bytes(bytes) else { continue };
        let bounds: Vec<_> = list.iter().flat_map(|range| [range.start(), range.end()]).collect();
        assert!(bounds.chunks(2).all(|range| range[0] <= range[1]));
        assert!(bounds[1..].chunks_exact(2).all(|gap| gap[0] < gap[1]));
        assert_eq!(bounds.len(), 2 * list.len());
        lists += 1;
    }
    assert!(lists > 500);
}

#[test]
fn what_lies_outside_of_pages_that_both_have() {
    let mut lines = 0;
    for (sides, answer) in differences(include_str!("unshared.txt")) {
        let [local, peer] = sides.map(PageRangeSnapshot::from);
        let asked = unshared(&local, &peer);
        assert_eq!(text(&asked), answer);
        assert_eq!(KeyRanges::from_bytes(asked.as_bytes()), Ok(asked));
        lines += 1;
    }
    assert_eq!(lines, 10);
}

#[test]
fn snapshots_of_borrowed_and_of_owned_ranges_are_equal() {
    let digest = |of| PageDigest::new([of; 16]);
    let borrowed = [PageRange::new(&"a", &"b", digest(1)), PageRange::new(&"c", &"d", digest(2))];
    let owned = [OwnedPageRange::new("a", "b", digest(1)), OwnedPageRange::new("c", "d", digest(2))];
    let borrowed: PageRangeSnapshot<_> = borrowed.into_iter().collect();
    let owned: PageRangeSnapshot<_> = owned.into_iter().collect();
    assert_eq!(borrowed, owned);
    assert_eq!((borrowed.len(), borrowed.iter().len()), (2, 2));
}
