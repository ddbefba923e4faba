//! Two stores that come to hold the same keys, as in example.c: they give each other bytes alone. `Tree`, `difference` and `ranges`
//! are safe ways to the calls of mst.h; they stop the program at a status that they don't look for.
use std::{collections::BTreeMap, os::raw::c_int, ptr, slice};

const DONE: c_int = 0;
const TOO_SHORT: c_int = 3;
const ABSENT: c_int = 5;

/// A handle, `struct mst_tree` of mst.h.
#[repr(C)]
struct Handle {
    at: *mut u8,
}

/// A range of a list, `struct mst_range` of mst.h.
#[repr(C)]
struct Range {
    first: *const u8,
    first_len: usize,
    last: *const u8,
    last_len: usize,
    digest: *const u8,
}

unsafe extern "C" {
    fn mst_tree_new(out: *mut Handle) -> c_int;
    fn mst_tree_free(tree: *mut Handle);
    fn mst_tree_upsert(tree: *mut Handle, key: *const u8, key_len: usize, value: *const u8, value_len: usize) -> c_int;
    fn mst_tree_root_hash(tree: *mut Handle, out: *mut u8) -> c_int;
    fn mst_tree_page_ranges(tree: *mut Handle, out: *mut u8, out_len: usize, needed: *mut usize) -> c_int;
    fn mst_diff(local: *const u8, local_len: usize, peer: *const u8, peer_len: usize, out: *mut u8, out_len: usize, needed: *mut usize) -> c_int;
    fn mst_ranges_next(list: *const u8, list_len: usize, at: *mut usize, out: *mut Range) -> c_int;
}

/// A tree, which is freed with the value. It stays on its thread, though a handle may go to another: the package in rust/ lets it.
struct Tree(Handle);

impl Tree {
    fn new() -> Tree {
        let mut handle = Handle { at: ptr::null_mut() };
        assert_eq!(unsafe { mst_tree_new(&mut handle) }, DONE);
        Tree(handle)
    }

    fn upsert(&mut self, key: &[u8], value: &[u8]) {
        let status = unsafe { mst_tree_upsert(&mut self.0, key.as_ptr(), key.len(), value.as_ptr(), value.len()) };
        assert_eq!(status, DONE);
    }

    fn root_hash(&mut self) -> [u8; 16] {
        let mut root = [0; 16];
        assert_eq!(unsafe { mst_tree_root_hash(&mut self.0, root.as_mut_ptr()) }, DONE);
        root
    }

    fn page_ranges(&mut self) -> Vec<u8> {
        answer(|out, len, needed| unsafe { mst_tree_page_ranges(&mut self.0, out, len, needed) })
    }
}

impl Drop for Tree {
    fn drop(&mut self) {
        unsafe { mst_tree_free(&mut self.0) }
    }
}

/// The list of the ranges of keys to ask the peer for.
fn difference(own: &[u8], peer: &[u8]) -> Vec<u8> {
    answer(|out, len, needed| unsafe { mst_diff(own.as_ptr(), own.len(), peer.as_ptr(), peer.len(), out, len, needed) })
}

/// The bytes that a call writes, after it has said how many they are.
fn answer(mut call: impl FnMut(*mut u8, usize, *mut usize) -> c_int) -> Vec<u8> {
    let mut needed = 0;
    assert_eq!(call(ptr::null_mut(), 0, &mut needed), TOO_SHORT);
    let mut bytes = vec![0; needed];
    assert_eq!(call(bytes.as_mut_ptr(), bytes.len(), &mut needed), DONE);
    bytes
}

/// Goes over the ranges of a list: the first and the last key of each, where they lie in the list.
fn ranges(list: &[u8]) -> impl Iterator<Item = (&[u8], &[u8])> {
    let mut at = 0;
    std::iter::from_fn(move || {
        let mut found = Range { first: ptr::null(), first_len: 0, last: ptr::null(), last_len: 0, digest: ptr::null() };
        match unsafe { mst_ranges_next(list.as_ptr(), list.len(), &mut at, &mut found) } {
            DONE => Some(unsafe { (slice::from_raw_parts(found.first, found.first_len), slice::from_raw_parts(found.last, found.last_len)) }),
            ABSENT => None,
            status => panic!("status {}", status),
        }
    })
}

/// A store: rows, and the tree over them.
struct Store {
    rows: BTreeMap<Vec<u8>, Vec<u8>>,
    tree: Tree,
}

impl Store {
    fn put(&mut self, key: &[u8], value: &[u8]) {
        self.tree.upsert(key, value);
        self.rows.insert(key.to_vec(), value.to_vec());
    }

    /// The rows in the ranges that a peer asks for: each is its key of 8 bytes, how long the value is in one byte, and the value.
    fn rows_in(&self, asked: &[u8]) -> Vec<u8> {
        let mut rows = Vec::new();
        for (first, last) in ranges(asked) {
            for (key, value) in self.rows.iter().filter(|(key, _)| first <= &key[..] && &key[..] <= last) {
                rows.extend_from_slice(key);
                assert!(value.len() < 256);
                rows.push(value.len() as u8);
                rows.extend_from_slice(value);
            }
        }
        rows
    }

    /// Takes the rows that a peer sent, and says how many of them are new. Of two values of a key the greater stays.
    fn take(&mut self, mut rows: &[u8]) -> usize {
        let mut came = 0;
        while !rows.is_empty() {
            let (key, behind) = rows.split_at(8);
            let (value, behind) = behind[1..].split_at(behind[0] as usize);
            rows = behind;
            if self.rows.get(key).is_none_or(|own| &own[..] < value) {
                self.put(key, value);
                came += 1;
            }
        }
        came
    }

    /// Brings what the peer has in the ranges in which the two differ.
    fn pull(&mut self, peer: &mut Store) -> usize {
        let own = self.tree.page_ranges();
        let others = peer.tree.page_ranges(); // sent by the peer
        let asked = difference(&own, &others); // sent to the peer
        let rows = peer.rows_in(&asked); // sent by the peer
        self.take(&rows)
    }
}

fn main() {
    let [mut a, mut b] = [(); 2].map(|()| Store { rows: BTreeMap::new(), tree: Tree::new() });
    for number in 0..1000 {
        let key = format!("key{number:05}");
        if number % 10 != 3 {
            a.put(key.as_bytes(), if number == 500 { b"newer" } else { b"known" });
        }
        if number % 100 != 7 {
            b.put(key.as_bytes(), if number == 42 { b"newer" } else { b"known" });
        }
    }
    let (mut to_a, mut to_b) = (0, 0);
    for _turn in 0..2 {
        to_a += a.pull(&mut b);
        to_b += b.pull(&mut a);
    }
    println!("{to_a} rows came to a, {to_b} to b");
    for root in [a.tree.root_hash(), b.tree.root_hash()] {
        println!("{}", root.map(|byte| format!("{byte:02x}")).concat());
    }
}
