//! Trees: their root hashes against answers from outside, and what changes one.
use merkle_search_tree::{
    builder::{Builder, KeyFeed, PageFormat},
    diff::{diff_snapshots, PageRangeSnapshot},
    digest::{siphash::SipHasher, Digest, PageDigest, RootHash, ValueDigest},
    version, ByHash, Key, MerkleSearchTree, NotAscending, OutOfMemory,
};
use std::{error::Error, num::NonZeroU8};

fn fill(tree: &mut MerkleSearchTree<String, u64>, size: u64) {
    tree.extend((0..size).map(|i| (format!("k{i:04}"), i * i)));
}

fn squares(size: u64) -> MerkleSearchTree<String, u64> {
    let mut tree = MerkleSearchTree::default();
    fill(&mut tree, size);
    tree
}

/// The lines of a table, cut into words.
fn table(text: &str) -> impl Iterator<Item = Vec<&str>> {
    text.lines().filter(|line| !line.starts_with('#')).map(|line| line.split_whitespace().collect())
}

#[test]
fn root_hashes_and_page_ranges_are_those_of_the_crate() {
    let mut lines = 0;
    for words in table(include_str!("roots.txt")) {
        let mut tree = squares(words[0].parse().unwrap());
        assert_eq!(tree.root_hash().to_string(), words[1]);
        let ranges = tree.serialise_page_ranges().unwrap();
        assert_eq!(ranges.len().to_string(), words[2]);
        let first: Vec<_> = ranges.iter().take(6).map(|range| format!("{}..{}", range.start(), range.end())).collect();
        assert_eq!(first, words[3..]);
        assert_eq!(tree.page_ranges(), PageRangeSnapshot::from(tree.serialise_page_ranges().unwrap()));
        lines += 1;
    }
    assert_eq!(lines, 15);
}

#[test]
fn root_hashes_in_format_2() {
    let mut lines = 0;
    for words in table(include_str!("format2.txt")) {
        let mut tree = Builder::default().with_page_format(PageFormat::V2).build();
        fill(&mut tree, words[0].parse().unwrap());
        assert_eq!(tree.root_hash().to_string(), words[1]);
        lines += 1;
    }
    assert_eq!(lines, 15);
}

/// The root hash of a tree in base 16, and how many page ranges it has.
fn root_and_ranges<K: Key>(tree: &mut MerkleSearchTree<K, u64>) -> (String, usize) {
    let root = tree.root_hash().as_bytes().iter().map(|byte| format!("{byte:02x}")).collect();
    (root, tree.serialise_page_ranges().unwrap().len())
}

#[test]
fn root_hashes_of_keys_that_are_fed_as_in_the_crate() {
    let mut lines = 0;
    for words in table(include_str!("feeds.txt")) {
        let [step, base, size, ranges] = [1, 2, 3, 4].map(|at| words[at].parse::<usize>().unwrap());
        let key: [u8; 16] = std::array::from_fn(|i| (step * i) as u8);
        let rows = (0..size as u64).map(|i| (format!("k{i:04}"), i * i));
        let builder =
            Builder::default().with_hasher(SipHasher::new(&key)).with_level_base(NonZeroU8::new(base as u8).unwrap());
        let found = if words[0] == "text" {
            let mut tree = builder.with_key_feed(KeyFeed::Text).build();
            tree.extend(rows);
            root_and_ranges(&mut tree)
        } else {
            let mut tree = builder.with_key_feed(KeyFeed::Vector).build();
            tree.extend(rows.map(|(key, value)| (key.into_bytes(), value)));
            root_and_ranges(&mut tree)
        };
        assert_eq!(found, (words[5].to_owned(), ranges));
        lines += 1;
    }
    assert_eq!(lines, 20);
}

#[test]
fn digests_are_found_by_their_keys_and_loaded() {
    let mut tree = squares(500);
    let nodes = tree.nodes();
    for (i, node) in nodes.iter().enumerate() {
        assert_eq!(tree.value_hash(format!("k{i:04}")), Some(*node.value_hash()));
    }
    assert_eq!(tree.value_hash("k"), None);
    assert!(tree.contains_key("k0499") && !tree.contains_key("k0500"));
    let rows: Vec<_> = nodes.iter().map(|node| (node.key().to_owned(), *node.value_hash())).collect();
    let mut again = squares(3);
    assert_eq!(again.load_digests(rows.iter().rev().cloned()), Err(NotAscending));
    assert_eq!(again.len(), 3);
    assert_eq!(again.load_digests(rows), Ok(()));
    assert_eq!(again.root_hash(), tree.root_hash());
}

#[test]
fn root_hashes_under_another_key_and_other_bases() {
    let key: [u8; 16] = std::array::from_fn(|i| i as u8);
    for (base, format, root, ranges) in OTHER_SETTINGS {
        let mut tree = Builder::default()
            .with_hasher(SipHasher::new(&key))
            .with_level_base(NonZeroU8::new(base).unwrap())
            .with_page_format(format)
            .build();
        fill(&mut tree, 500);
        let hex: String = tree.root_hash().as_bytes().iter().map(|byte| format!("{byte:02x}")).collect();
        assert_eq!((&hex[..], tree.page_ranges().len()), (root, ranges));
    }
}

/// Level base, page format, root hash and how many page ranges, of 500 keys under the key 00 01 .. 0f: format 1 by the crate, format 2 by a
/// program written from its definition.
const OTHER_SETTINGS: [(u8, PageFormat, &str, usize); 8] = [
    (1, PageFormat::V1, "943ebbaf1652f9a0296e5ad760b80238", 5),
    (1, PageFormat::V2, "b77f759be26ccaaf038bf89d72e0c609", 5),
    (4, PageFormat::V1, "7e48a06ba06be2b468ea6dd8075afeb5", 101),
    (4, PageFormat::V2, "d77ecb8cc22a96cadae5719905b82590", 101),
    (128, PageFormat::V1, "0c9503cdaef72b1981df6df63e48c57c", 7),
    (128, PageFormat::V2, "578a7dab0c81c92573088eaae4d00249", 7),
    (255, PageFormat::V1, "86ed190f5351ccc301057fa942b0e922", 9),
    (255, PageFormat::V2, "cdf41ea7186c4a138feb9f32112c4c81", 9),
];

/// The keys of bench/README.md, and how many ranges differ where each tenth value is another.
#[test]
fn trees_of_drawn_keys() {
    for (size, local, peer, ranges, others, other_keys, tenth_value) in [
        (100, "DIBrGs0+mcnt0B1RY1k0FQ==", "mz4kPMOm7NIF6ikDwk+b7w==", 7, 12, 0, 2),
        (1_000, "4SWjvcgnE1RCkar5U9ZP+Q==", "wJS4To/mERJ040ebVhA+VA==", 67, 70, 0, 17),
        (10_000, "mWE4RSoDcumvvXlBFeu6yg==", "jwgWG7Ymya8+Uao29m0gzA==", 635, 615, 1, 189),
    ] {
        let [mut a, mut b] = [88172645463325252, 362436069].map(|seed| drawn(seed, size));
        assert_eq!((a.root_hash().to_string(), b.root_hash().to_string()), (local.into(), peer.into()));
        assert_eq!((a.page_ranges().len(), b.page_ranges().len()), (ranges, others));
        assert_eq!(diff_snapshots(&a.page_ranges(), &b.page_ranges()).len(), other_keys);
        let mut c = a.clone();
        keys(88172645463325252).take(size).step_by(10).for_each(|key| c.upsert(key, &2));
        assert_eq!(diff_snapshots(&a.page_ranges(), &c.page_ranges()).len(), tenth_value);
    }
}

fn keys(mut state: u64) -> impl Iterator<Item = String> {
    std::iter::repeat_with(move || {
        state ^= state << 13;
        state ^= state >> 7;
        state ^= state << 17;
        format!("k{state:016x}")
    })
}

fn drawn(seed: u64, size: usize) -> MerkleSearchTree<String, u64> {
    keys(seed).take(size).map(|key| (key, 1)).collect()
}

#[test]
fn the_order_of_upserts_is_no_matter() {
    let mut backwards = MerkleSearchTree::default();
    (0..500_u64).rev().for_each(|i| backwards.upsert(format!("k{i:04}"), &(i * i)));
    assert_eq!(backwards.root_hash(), squares(500).root_hash());
}

#[test]
fn a_root_hash_is_cached_until_a_key_changes() {
    let mut tree = squares(10);
    assert!(tree.root_hash_cached().is_none() && tree.serialise_page_ranges().is_none());
    let before = *tree.root_hash();
    assert_eq!(tree.root_hash_cached(), Some(&before));
    assert!(!tree.remove("k9999"));
    assert_eq!(tree.root_hash_cached(), Some(&before));
    tree.upsert("k0003".into(), &9);
    assert!(tree.root_hash_cached().is_none() && tree.serialise_page_ranges().is_none());
    assert_eq!(tree.root_hash(), &before);
    tree.upsert("k0003".into(), &8);
    assert_ne!(tree.root_hash(), &before);
}

#[test]
fn page_ranges_that_are_lent_are_those_of_now() {
    let mut tree = squares(10);
    tree.root_hash();
    assert_eq!(tree.serialise_page_ranges().unwrap()[0].end(), "k0009");
    let copy = tree.clone();
    tree.upsert("k0010".into(), &0);
    tree.root_hash();
    assert_eq!(tree.serialise_page_ranges().unwrap()[0].end(), "k0010");
    assert_eq!(copy.serialise_page_ranges().unwrap()[0].end(), "k0009");
    assert!(tree.remove("k0010") && tree.remove("k0009"));
    tree.root_hash();
    assert_eq!(tree.serialise_page_ranges().unwrap()[0].end(), "k0008");
    tree.load([("only".to_owned(), 1)]).unwrap();
    tree.root_hash();
    assert_eq!(tree.serialise_page_ranges().unwrap()[0].end(), "only");
}

#[test]
fn what_is_removed_leaves_no_mark() {
    let mut tree = squares(300);
    (200..300).for_each(|i| assert!(tree.remove(format!("k{i:04}"))));
    assert_eq!(tree.len(), 200);
    assert_eq!(tree.root_hash(), squares(200).root_hash());
}

#[test]
fn a_load_is_the_upserts_of_its_rows() {
    let mut tree = squares(7);
    tree.load((0..1000).map(|i| (format!("k{i:04}"), i * i))).unwrap();
    assert_eq!(tree.root_hash(), squares(1000).root_hash());
    for rows in [[("b", 1), ("a", 2)], [("a", 1), ("a", 2)]] {
        assert_eq!(tree.load(rows.map(|(key, value)| (key.to_owned(), value))), Err(NotAscending));
    }
    assert_eq!(tree.root_hash(), squares(1000).root_hash());
}

#[test]
fn a_copy_is_a_tree_of_its_own() {
    let mut tree = squares(100);
    let mut copy = tree.clone();
    copy.upsert("more".into(), &1);
    assert_eq!((tree.len(), copy.len()), (100, 101));
    assert_eq!(tree.root_hash(), squares(100).root_hash());
}

#[test]
fn values_by_their_hash() {
    let (mut by_bytes, mut by_hash) = (MerkleSearchTree::default(), MerkleSearchTree::default());
    by_bytes.upsert("key", &7_u64);
    by_hash.upsert("key", &ByHash(7_u64));
    assert_eq!(by_bytes.root_hash(), by_hash.root_hash());
    let (mut by_bytes, mut by_hash) = (MerkleSearchTree::default(), MerkleSearchTree::default());
    by_bytes.upsert("key", &("text", [0xff]));
    by_hash.upsert("key", &ByHash("text"));
    assert_eq!(by_bytes.root_hash(), by_hash.root_hash());
}

#[test]
fn keys_come_in_order_with_the_digests_that_were_given() {
    let mut tree = MerkleSearchTree::<String, ()>::default();
    assert!(tree.is_empty() && tree.nodes().is_empty());
    for i in (0..1000_u32).rev() {
        tree.upsert_digest(format!("{i:04}"), &ValueDigest::new(Digest::new([i as u8; 16])));
    }
    let nodes = tree.nodes();
    assert_eq!((nodes.len(), nodes.iter().len(), nodes.iter().count()), (1000, 1000, 1000));
    for (i, node) in nodes.iter().enumerate() {
        assert_eq!((node.key(), node.value_hash().as_bytes()), (&format!("{i:04}")[..], &[i as u8; 16]));
    }
}

#[test]
fn the_digest_of_a_value_is_that_of_its_upsert() {
    let (mut tree, mut again) = (squares(300), MerkleSearchTree::<String, u64>::default());
    for node in &tree.nodes() {
        again.upsert_digest(node.key().to_owned(), node.value_hash());
    }
    assert_eq!(again.root_hash(), tree.root_hash());
}

#[test]
fn page_ranges_go_to_a_peer_and_come_back() {
    let mut tree = squares(2000);
    let ranges = tree.page_ranges();
    let root = ranges.iter().next().unwrap();
    assert_eq!(RootHash::new(*root.hash()), *tree.root_hash());
    assert!(ranges.iter().all(|range| root.is_superset_of(&range)));
    let came = PageRangeSnapshot::<String>::from_bytes(ranges.as_bytes()).unwrap();
    assert_eq!(came, ranges);
    assert_eq!(came.iter().collect::<PageRangeSnapshot<_>>(), ranges);
}

#[test]
fn digests_as_texts() {
    for (bytes, text) in [(&[][..], ""), (b"f", "Zg=="), (b"fo", "Zm8="), (b"foo", "Zm9v"), (b"foob", "Zm9vYg==")] {
        let mut all = [0; 4];
        all[..bytes.len()].copy_from_slice(bytes);
        let written = match bytes.len() {
            0 => Digest::new([0; 0]).to_string(),
            1 => Digest::new([all[0]]).to_string(),
            2 => Digest::new([all[0], all[1]]).to_string(),
            3 => Digest::new([all[0], all[1], all[2]]).to_string(),
            _ => Digest::new(all).to_string(),
        };
        assert_eq!(written, text);
    }
    let page = PageDigest::new(*b"bananas\nbananas\n");
    assert_eq!(page.to_string(), "YmFuYW5hcwpiYW5hbmFzCg==");
    assert_eq!(Digest::new(*b"bananas\n").to_string(), "YmFuYW5hcwo=");
}

#[test]
fn errors_are_errors() {
    let errors: [Box<dyn Error + Send + Sync>; 3] =
        [Box::new(OutOfMemory), Box::new(NotAscending), Box::new(merkle_search_tree::Malformed)];
    assert!(errors.iter().all(|error| !error.to_string().is_empty()));
}

#[test]
fn the_library_is_that_of_this_version() {
    assert_eq!(version(), env!("CARGO_PKG_VERSION"));
}
