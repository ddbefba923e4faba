//! A tree and rows that others write: what a tree says of them, and how it is brought into step.
mod common;

use common::{draws, Model, Settings};
use merkle_search_tree::{
    builder::PageFormat,
    digest::siphash::SipHasher,
    replica::Replica,
    sync::{answer, Came, Failed, Give, Next, Range, Row, Rows, SyncTree},
};
use std::num::NonZeroU8;

/// A key that shares much, little or nothing with others.
fn key(draw: &mut impl FnMut(u64) -> u64) -> Vec<u8> {
    let front = vec![b'f'; [0, 0, 7, 14, 130, 253, 300][draw(7) as usize]];
    let own = (0..draw(5)).map(|_| b"\0abz\xff"[draw(5) as usize]);
    front.into_iter().chain(own).collect()
}

fn drawn(draw: &mut impl FnMut(u64) -> u64, most: u64) -> Model {
    (0..draw(most + 1)).map(|_| (key(draw), vec![b'v'; draw(3) as usize])).collect()
}

/// The rows after another program wrote and deleted some of them.
fn written(rows: &Model, draw: &mut impl FnMut(u64) -> u64) -> Model {
    let mut rows = rows.clone();
    rows.extend(drawn(draw, 10));
    rows.retain(|_, _| draw(10) > 0);
    rows
}

/// The keys at which two maps differ, in their order.
fn differing(one: &Model, other: &Model) -> Vec<Vec<u8>> {
    let both: Model = one.clone().into_iter().chain(other.clone()).collect();
    both.into_keys().filter(|key| one.get(key) != other.get(key)).collect()
}

fn settings() -> impl Iterator<Item = Settings> {
    let base = |base| NonZeroU8::new(base).unwrap();
    [
        (SipHasher::default(), base(16), PageFormat::V1),
        (SipHasher::new(b"a key of SipHash"), base(2), PageFormat::V2),
        (SipHasher::default(), base(1), PageFormat::V1),
        (SipHasher::default(), base(255), PageFormat::V2),
    ]
    .into_iter()
}

fn tree_of(rows: &Model, (hasher, base, format): &Settings) -> SyncTree {
    let mut tree = SyncTree::with_settings(hasher, *base, *format);
    tree.extend(rows);
    tree
}

/// How many rows are drawn at most.
const SIZES: [u64; 6] = [0, 1, 5, 60, 400, 3000];

/// Rows that are drawn, of which a tree is told, and what other programs then made of them.
fn drawn_pair(draw: &mut impl FnMut(u64) -> u64, size: u64) -> (Model, Model) {
    let told = drawn(draw, size);
    let rows = written(&told, draw);
    (told, rows)
}

#[test]
fn verify_names_the_keys_that_differ() {
    let mut draw = draws(23);
    for settings in settings() {
        for size in SIZES.repeat(3) {
            let (told, mut rows) = drawn_pair(&mut draw, size);
            let mut tree = tree_of(&told, &settings);
            let before = tree.root_hash();
            let keys = tree.verify(&mut rows).unwrap();
            assert_eq!(keys, differing(&told, &rows));
            assert_eq!(tree.root_hash(), before);
            for key in keys {
                match rows.get(&key) {
                    Some(value) => tree.set(&key, value),
                    None => assert!(tree.remove(&key)),
                }
            }
            assert!(tree.verify(&mut rows).unwrap().is_empty());
            assert_eq!(tree.root_hash(), tree_of(&rows, &settings).root_hash());
        }
    }
}

#[test]
fn verify_of_rows_that_are_gone_or_new() {
    let all: Model = (0..2000_u32).map(|i| (i.to_be_bytes().to_vec(), vec![1])).collect();
    for (told, mut rows) in [(&all, Model::new()), (&Model::new(), all.clone())] {
        let mut tree = SyncTree::from_iter(told);
        assert_eq!(tree.verify(&mut rows).unwrap(), all.keys().cloned().collect::<Vec<_>>());
    }
}

#[test]
fn a_rescan_sets_the_rows_of_a_range_and_no_others() {
    let mut draw = draws(29);
    for settings in settings() {
        for size in SIZES.repeat(10) {
            let (told, mut rows) = drawn_pair(&mut draw, size);
            let (first, end) = (key(&mut draw), key(&mut draw));
            let range = match draw(3) {
                0 => Range::ALL,
                1 if first < end => Range { first: &first, end: Some(&end) },
                _ => Range { first: &first, end: None },
            };
            let mut wanted = told.clone();
            wanted.retain(|key, _| key[..] < *range.first || range.end.is_some_and(|end| key[..] >= *end));
            wanted.extend(rows.range::<[u8], _>(range).map(|(key, value)| (key.clone(), value.clone())));
            let mut tree = tree_of(&told, &settings);
            tree.rescan(&mut rows, range).unwrap();
            assert_eq!(tree.root_hash(), tree_of(&wanted, &settings).root_hash(), "{range:?}");
        }
    }
}

/// Rows of which no more than so many are given.
struct Failing(Model, usize);

impl Rows for Failing {
    type Error = &'static str;

    fn value(&mut self, key: &[u8]) -> Result<Option<Vec<u8>>, &'static str> {
        Ok(self.0.get(key).cloned())
    }

    fn rows_in(&mut self, range: Range<'_>, give: &mut Give<'_>) -> Result<(), &'static str> {
        for (at, (key, value)) in self.0.range::<[u8], _>(range).enumerate() {
            if at == self.1 {
                return Err("no database");
            }
            give(key, value);
        }
        Ok(())
    }

    fn join(&mut self, _came: &Came) -> Result<Vec<Row>, &'static str> {
        Err("no database")
    }
}

#[test]
fn rows_that_fail_while_they_are_scanned() {
    let told: Model = (0..100_u8).map(|i| (vec![i], vec![1])).collect();
    let mut rows: Model = (0..100_u8).step_by(2).map(|i| (vec![i], vec![2])).collect();
    for given in [0, 1, 25, 49] {
        let (mut tree, mut failing) = (SyncTree::from_iter(&told), Failing(rows.clone(), given));
        assert!(matches!(tree.verify(&mut failing), Err(Failed::Rows("no database"))));
        assert_eq!(tree.root_hash(), Replica::from_iter(&told).root_hash());
        assert!(matches!(tree.rescan(&mut failing, Range::ALL), Err(Failed::Rows("no database"))));
        let mut partly = told.clone();
        partly.extend(rows.clone().into_iter().take(given));
        assert_eq!(tree.root_hash(), Replica::from_iter(&partly).root_hash());
        tree.rescan(&mut rows, Range::ALL).unwrap();
        assert_eq!(tree.root_hash(), Replica::from_iter(&rows).root_hash());
    }
}

#[test]
fn a_catch_up_goes_on_while_the_tree_is_verified() {
    let theirs: Model = (0..300).map(|i| (format!("{i}").into_bytes(), vec![1; 40])).collect();
    let (mut rows, mut peers): (Model, Model) = (theirs.clone().into_iter().step_by(2).collect(), theirs.clone());
    let (mut tree, mut peer) = (SyncTree::from_iter(&rows), SyncTree::from_iter(&peers));
    let mut question = tree.ask().unwrap();
    let came = loop {
        assert!(tree.verify(&mut rows).unwrap().is_empty());
        tree.rescan(&mut rows, Range { first: b"1", end: Some(b"2") }).unwrap();
        match tree.take(&answer(&mut peer, &mut peers, &question).unwrap()).unwrap() {
            Next::Ask(next) => question = next,
            Next::Came(came) => break came,
        }
    };
    assert_eq!(came.len(), 150);
}
