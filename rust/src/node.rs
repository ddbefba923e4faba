//! The keys of a tree in their order.
use crate::{
    bytes::{seen_again, Key},
    digest::{Digest, ValueDigest},
    list::{self, keyed_list},
};
use std::{fmt, marker::PhantomData};

keyed_list! {
    /// The keys that a tree had at one time, each with the digest of its value.
    Nodes of Node by NodeIter, "How many keys there are."
}

impl<K: Key> Nodes<K> {
    /// Goes over the keys in their order.
    pub fn iter(&self) -> NodeIter<'_, K> {
        NodeIter { rest: &self.list[list::FRONT..], left: self.len(), key: PhantomData }
    }
}

impl<K> fmt::Debug for Nodes<K> {
    fn fmt(&self, f: &mut fmt::Formatter<'_>) -> fmt::Result {
        f.debug_struct("Nodes").field("len", &self.len()).finish_non_exhaustive()
    }
}

/// A key, and the digest of its value.
pub struct Node<'a, K: Key> {
    key: &'a K::Seen,
    value_hash: ValueDigest,
}

impl<'a, K: Key> Node<'a, K> {
    /// The key.
    pub fn key(&self) -> &'a K::Seen {
        self.key
    }

    /// The digest of its value.
    pub fn value_hash(&self) -> &ValueDigest {
        &self.value_hash
    }
}

impl<K: Key> fmt::Debug for Node<'_, K> {
    fn fmt(&self, f: &mut fmt::Formatter<'_>) -> fmt::Result {
        f.debug_struct("Node").field("key", &self.key.as_ref()).field("value_hash", &self.value_hash).finish()
    }
}

/// Goes over the keys of a tree in their order.
pub struct NodeIter<'a, K> {
    rest: &'a [u8],
    left: usize,
    key: PhantomData<fn() -> K>,
}

impl<'a, K: Key> Iterator for NodeIter<'a, K> {
    type Item = Node<'a, K>;

    fn next(&mut self) -> Option<Node<'a, K>> {
        let key = list::string(&mut self.rest)?;
        let (digest, rest) = self.rest.split_first_chunk()?;
        self.rest = rest;
        self.left -= 1;
        Some(Node { key: seen_again::<K>(key), value_hash: ValueDigest::new(Digest::new(*digest)) })
    }

    fn size_hint(&self) -> (usize, Option<usize>) {
        (self.left, Some(self.left))
    }
}
