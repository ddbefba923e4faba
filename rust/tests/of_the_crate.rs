//! The example of the README of the crate merkle-search-tree 0.8.0, and what its tests say over byte keys. The lines that differ from the
//! crate's are marked; docs/DIFFERENCES.md names them.
#![allow(clippy::useless_conversion)] // `into_iter()`, as the crate's example has it
use merkle_search_tree::{
    diff::{diff, PageRange, PageRangeSnapshot},
    digest::PageDigest,
    Key, MerkleSearchTree,
};
use std::{collections::BTreeMap, ops::RangeInclusive};

#[test]
fn the_example_of_the_readme() {
    let mut node_a = MerkleSearchTree::default();
    node_a.upsert("bananas", &());
    node_a.upsert("plátanos", &());
    let mut node_b = MerkleSearchTree::default();
    node_b.upsert("donkey", &());
    assert_ne!(node_a.root_hash(), node_b.root_hash());
    let diff_range =
        diff(node_b.serialise_page_ranges().unwrap().into_iter(), node_a.serialise_page_ranges().unwrap().into_iter());
    let [range] = diff_range.as_slice() else { panic!("{diff_range:?}") };
    assert_eq!(range.start(), "bananas"); // &"bananas"
    assert_eq!(range.end(), "plátanos"); // &"plátanos"
}

#[test]
fn the_example_of_the_tree() {
    let mut t = MerkleSearchTree::default();
    t.upsert("bananas", &"great");
    t.upsert("plátano", &"muy bien");
    let hash_1 = t.root_hash().to_owned();
    println!("{:?}", hash_1.as_ref());
    t.upsert("bananas", &"amazing");
    let hash_2 = t.root_hash().to_owned();
    println!("{:?}", hash_2);
    assert_ne!(hash_1.as_ref(), hash_2.as_ref());
}

#[test]
fn page_ranges_as_the_callers_own_messages() {
    struct NetworkPage {
        start_bounds: String,
        end_bounds: String,
        hash: [u8; 16],
    }
    let mut t = MerkleSearchTree::default();
    t.upsert("bananas".to_string(), &"platanos".to_string());
    t.root_hash();
    let page_ranges = t.serialise_page_ranges().unwrap();
    let network_pages: Vec<NetworkPage> = page_ranges
        .iter()
        .map(|v| NetworkPage {
            start_bounds: v.start().to_owned(), // clone()
            end_bounds: v.end().to_owned(),     // clone()
            hash: *v.hash().as_bytes(),
        })
        .collect();
    let got: Vec<PageRange<'_, String>> =
        network_pages.iter().map(|v| PageRange::new(&v.start_bounds, &v.end_bounds, PageDigest::new(v.hash))).collect();
    assert_eq!(page_ranges, got);
}

#[test]
fn snapshots_stay_while_trees_change() {
    let mut a = MerkleSearchTree::default();
    let mut b = MerkleSearchTree::default();
    a.upsert("bananas", &42);
    b.upsert("bananas", &24);
    let _ = a.root_hash();
    let _ = b.root_hash();
    let snap_a = PageRangeSnapshot::from(a.serialise_page_ranges().unwrap());
    let snap_b = PageRangeSnapshot::from(b.serialise_page_ranges().unwrap());
    a.upsert("bananas", &13);
    b.upsert("bananas", &13);
    let asked = diff(snap_a.iter(), snap_b.iter());
    let [range] = asked.as_slice() else { panic!("{asked:?}") };
    assert_eq!(range.start(), "bananas"); // &"bananas"
    assert_eq!(range.end(), "bananas"); // &"bananas"
    assert_eq!(diff(snap_a.iter(), snap_a.iter()), vec![]);
}

/// The crate's key of its tests, which orders numbers by their bytes.
#[derive(PartialOrd, Ord, PartialEq, Eq, Clone, Copy, Debug)]
struct IntKey([u8; 8]);

impl IntKey {
    fn new(v: u64) -> Self {
        Self(v.to_be_bytes())
    }
}

impl AsRef<[u8]> for IntKey {
    fn as_ref(&self) -> &[u8] {
        &self.0
    }
}

impl Key for IntKey {
    type Seen = [u8; 8];
    fn seen(bytes: &[u8]) -> Option<&[u8; 8]> {
        bytes.try_into().ok()
    }
}

/// The crate's peer of its tests: rows, and the tree over them.
#[derive(Default, Clone)]
struct Node(BTreeMap<IntKey, u64>, MerkleSearchTree<IntKey, u64>);

impl Node {
    fn of(keys: &[u64], value: u64) -> Self {
        let mut node = Self::default();
        keys.iter().for_each(|key| node.upsert(IntKey::new(*key), value));
        node
    }

    fn upsert(&mut self, key: IntKey, value: u64) {
        self.1.upsert(key, &value);
        self.0.insert(key, value);
    }

    fn page_ranges(&mut self) -> Vec<PageRange<'_, IntKey>> {
        self.1.root_hash();
        self.1.serialise_page_ranges().unwrap()
    }

    fn key_range_iter(&self, key_range: RangeInclusive<IntKey>) -> impl Iterator<Item = (&IntKey, &u64)> {
        self.0.range(key_range)
    }
}

/// One pull of `to` from `from`, whose rows stay: how many rows came.
fn sync_round(from: &mut Node, to: &mut Node) -> usize {
    let a2 = from.clone();
    let mut to2 = to.clone();
    let want = diff(to2.page_ranges(), from.page_ranges());
    let mut count = 0;
    for range in want {
        for (k, v) in a2.key_range_iter(IntKey(*range.start())..=IntKey(*range.end())) {
            // the bounds are keys in the crate
            to.upsert(*k, *v);
            count += 1;
        }
    }
    count
}

/// Pulls by turns until none brings a row, at most so many as the two have keys: both have the same rows then.
fn sync(mut a: Node, mut b: Node) {
    for _ in 0..=a.0.len() + b.0.len() {
        let (to_b, to_a) = (sync_round(&mut a, &mut b), sync_round(&mut b, &mut a));
        if to_a == 0 && to_b == 0 {
            assert_eq!(a.0, b.0);
            assert_eq!(a.1.root_hash(), b.1.root_hash());
            return;
        }
    }
    panic!("failed to sync a => b in round limit");
}

#[test]
fn trees_of_the_crates_tests_come_to_agree() {
    sync(Node::of(&[42], 1), Node::of(&[42], 2));
    for (a, b) in [
        (&[42][..], &[24][..]),
        (&[244067356035258375], &[0, 2750749774246655017]),
        (&[2356959391436047, 8090434540343951592], &[1827784367256368463, 8090434540329235177]),
        (&[1479827427186972579, 6895546778622627890], &[0, 8090434540329235177]),
        (
            &[3541571342636567061, 4706901308862946071, 4706903583207578752],
            &[3632796868130453657, 3632803506728089373, 4707132771120484774],
        ),
        (&[1, 2, 3, 4, 5, 6, 7, 8, 9, 10], &[1, 2, 3, 4, 5, 6]),
    ] {
        sync(Node::of(a, 0), Node::of(b, 0));
    }
}

#[test]
fn drawn_trees_come_to_agree() {
    let mut state = 7_u64;
    let mut draw = || {
        state ^= state << 13;
        state ^= state >> 7;
        state ^= state << 17;
        state
    };
    for round in 0..100 {
        let [a, b] = [(); 2].map(|()| {
            let mut node = Node::default();
            for _ in 0..draw() % 100 {
                let key = if round % 2 == 0 { draw() } else { draw() % 50 };
                node.upsert(IntKey::new(key), draw() % 50);
            }
            node
        });
        sync(a, b);
    }
}
