//! Replicas that hold their rows: what stays, in which order rows are put, and root hashes.
mod common;

use common::{drawn, draws, join, model, Model};
use merkle_search_tree::{
    builder::{Builder, PageFormat},
    digest::siphash::SipHasher,
    replica::{Fault, Replica, Rows},
    MerkleSearchTree,
};
use std::{
    error::Error,
    io::{self, ErrorKind},
    num::NonZeroU8,
    time::{Duration, Instant},
};

#[test]
fn the_greater_value_stays() {
    let (mut draw, mut held, mut replica) = (draws(3), Model::new(), Replica::default());
    assert!(replica.is_empty() && replica.rows().is_empty());
    for _ in 0..3000 {
        let [key, value] =
            [5, 4].map(|below| (0..draw(below)).map(|_| b"\0a\xff"[draw(3) as usize]).collect::<Vec<u8>>());
        replica.put(&key, &value);
        join(&mut held, &key, &value);
        assert_eq!((replica.get(&key), replica.len()), (held.get(&key).cloned(), held.len()));
    }
    assert_eq!(model(&replica), held);
    let rows: Rows = replica.rows();
    assert_eq!((rows.len(), rows.iter().len(), rows.iter().count()), (held.len(), held.len(), held.len()));
    assert!(rows.into_iter().eq(held.iter().map(|(key, value)| (&key[..], &value[..]))));
    assert!(held.keys().all(|key| replica.contains_key(key)));
    assert!(!replica.contains_key("b") && replica.get("b").is_none());
    let long = vec![7; 300_000];
    replica.extend([("long", &long)]);
    assert_eq!((replica.get("long"), replica.get("")), (Some(long), held.get(&b""[..]).cloned()));
}

#[test]
fn rows_in_any_order_are_put_in_that_of_their_keys() {
    let (mut draw, mut held) = (draws(4), Model::new());
    let rows: Vec<(Vec<u8>, Vec<u8>)> = (0..3000)
        .map(|_| [400, 30].map(|below| draw(below).to_string().into_bytes()))
        .map(|[key, value]| (key, value))
        .collect();
    rows.iter().for_each(|(key, value)| join(&mut held, key, value));
    let (some, others) = rows.split_at(1000);
    let mut replica: Replica = some.iter().map(|(key, value)| (key, value)).collect();
    replica.extend(others.iter().map(|(key, value)| (key, value)));
    assert_eq!(model(&replica), held);
    let most = 300_000;
    let begun = Instant::now();
    let replica: Replica = (0..most).rev().map(|i| (format!("key{i:06}"), "")).collect();
    // Each put in front of all others, they would take minutes.
    assert!(replica.len() == most && begun.elapsed() < Duration::from_secs(20), "{:?}", begun.elapsed());
}

#[test]
fn the_root_hash_is_that_of_a_tree() {
    let mut draw = draws(5);
    for base in [1, 2, 16, 255].map(|base| NonZeroU8::new(base).unwrap()) {
        for format in [PageFormat::V1, PageFormat::V2] {
            let (hasher, rows) = (SipHasher::new(b"a key of SipHash"), drawn(&mut draw, 300));
            let mut replica = Replica::with_settings(&hasher, base, format);
            replica.extend(&rows);
            let builder = Builder::default().with_hasher(hasher).with_level_base(base).with_page_format(format);
            let mut tree: MerkleSearchTree<Vec<u8>, Vec<u8>> = builder.build();
            tree.extend(rows);
            assert_eq!(replica.root_hash(), *tree.root_hash());
        }
    }
    assert_eq!(Replica::default().root_hash(), *MerkleSearchTree::<&str, ()>::default().root_hash());
}

#[test]
fn faults_are_errors() {
    let faults = [
        (Fault::Malformed, ErrorKind::InvalidData),
        (Fault::OtherSettings, ErrorKind::InvalidData),
        (Fault::Refused, ErrorKind::InvalidData),
        (Fault::NotAsking, ErrorKind::InvalidInput),
        (Fault::OtherRows, ErrorKind::InvalidInput),
        (Fault::OutOfMemory { joined: 7 }, ErrorKind::OutOfMemory),
    ];
    for (fault, kind) in faults {
        let error = io::Error::from(fault);
        assert_eq!((error.kind(), error.to_string()), (kind, fault.to_string()));
        assert!(!(Box::new(fault) as Box<dyn Error + Send + Sync>).to_string().is_empty());
    }
}
