//! The calls of `mst.h`, `mst_replica.h` and `mst_sync.h`, and a safe way to each. No other module has unsafe code.
#![allow(unsafe_code)]

use crate::{
    replica::{Rows, Step},
    sync::Next,
    OutOfMemory,
};
use std::{
    cell::UnsafeCell,
    ffi::CStr,
    os::raw::{c_char, c_int},
    ptr, slice,
};

const DONE: c_int = 0;
const NO_MEMORY: c_int = 1;
const MALFORMED: c_int = 2;
const TOO_SHORT: c_int = 3;
const BAD_ARGUMENT: c_int = 4;
const ABSENT: c_int = 5;
const OTHER_SETTINGS: c_int = 6;
const REFUSED: c_int = 7;
const NEEDS_ROWS: c_int = 8;

/// `struct mst_tree`, `struct mst_replica` and `struct mst_sync`.
#[repr(C)]
struct Handle {
    at: *mut u8,
}

/// `struct mst_range`.
#[repr(C)]
struct Range {
    first: *const u8,
    first_len: usize,
    last: *const u8,
    last_len: usize,
    digest: *const u8,
}

#[rustfmt::skip]
extern "C" {
    fn mst_version() -> *const c_char;
    fn mst_tree_new_as(out: *mut Handle, key: *const u8, level_base: u8, page_format: u8, key_feed: u8) -> c_int;
    fn mst_tree_clone(tree: *mut Handle, out: *mut Handle) -> c_int;
    fn mst_tree_free(tree: *mut Handle);
    fn mst_tree_upsert(tree: *mut Handle, key: *const u8, key_len: usize, value: *const u8, value_len: usize) -> c_int;
    fn mst_tree_upsert_digest(tree: *mut Handle, key: *const u8, key_len: usize, digest: *const u8) -> c_int;
    fn mst_tree_remove(tree: *mut Handle, key: *const u8, key_len: usize) -> c_int;
    fn mst_tree_load(tree: *mut Handle, rows: *const u8, rows_len: usize) -> c_int;
    fn mst_tree_load_digests(tree: *mut Handle, list: *const u8, list_len: usize) -> c_int;
    fn mst_tree_find(tree: *mut Handle, key: *const u8, key_len: usize, digest: *mut u8) -> c_int;
    fn mst_tree_len(tree: *mut Handle, out: *mut usize) -> c_int;
    fn mst_tree_root_hash(tree: *mut Handle, out: *mut u8) -> c_int;
    fn mst_tree_page_ranges(tree: *mut Handle, out: *mut u8, out_len: usize, needed: *mut usize) -> c_int;
    fn mst_tree_digests(tree: *mut Handle, out: *mut u8, out_len: usize, needed: *mut usize) -> c_int;
    fn mst_diff(local: *const u8, local_len: usize, peer: *const u8, peer_len: usize, out: *mut u8, out_len: usize,
                needed: *mut usize) -> c_int;
    fn mst_ranges_next(list: *const u8, list_len: usize, at: *mut usize, out: *mut Range) -> c_int;
    fn mst_replica_new_with(out: *mut Handle, key: *const u8, level_base: u8, page_format: u8) -> c_int;
    fn mst_replica_free(replica: *mut Handle);
    fn mst_replica_put(replica: *mut Handle, key: *const u8, key_len: usize, value: *const u8, value_len: usize) -> c_int;
    fn mst_replica_get(replica: *mut Handle, key: *const u8, key_len: usize, out: *mut u8, out_len: usize,
                       needed: *mut usize) -> c_int;
    fn mst_replica_len(replica: *mut Handle, out: *mut usize) -> c_int;
    fn mst_replica_root_hash(replica: *mut Handle, out: *mut u8) -> c_int;
    fn mst_replica_rows(replica: *mut Handle, out: *mut u8, out_len: usize, needed: *mut usize) -> c_int;
    fn mst_replica_message(replica: *mut Handle, out: *mut u8, out_len: usize, needed: *mut usize) -> c_int;
    fn mst_replica_answer(replica: *mut Handle, question: *const u8, question_len: usize, message_len: *mut usize) -> c_int;
    fn mst_replica_ask(replica: *mut Handle, message_len: *mut usize) -> c_int;
    fn mst_replica_take(replica: *mut Handle, reply: *const u8, reply_len: usize, message_len: *mut usize,
                        joined: *mut usize) -> c_int;
    fn mst_sync_new_with(out: *mut Handle, key: *const u8, level_base: u8, page_format: u8) -> c_int;
    fn mst_sync_free(sync: *mut Handle);
    fn mst_sync_set(sync: *mut Handle, key: *const u8, key_len: usize, value: *const u8, value_len: usize) -> c_int;
    fn mst_sync_remove(sync: *mut Handle, key: *const u8, key_len: usize) -> c_int;
    fn mst_sync_find(sync: *mut Handle, key: *const u8, key_len: usize, digest: *mut u8) -> c_int;
    fn mst_sync_len(sync: *mut Handle, out: *mut usize) -> c_int;
    fn mst_sync_root_hash(sync: *mut Handle, out: *mut u8) -> c_int;
    fn mst_sync_message(sync: *mut Handle, out: *mut u8, out_len: usize, needed: *mut usize) -> c_int;
    fn mst_sync_list(sync: *mut Handle, out: *mut u8, out_len: usize, needed: *mut usize) -> c_int;
    fn mst_sync_ask(sync: *mut Handle, message_len: *mut usize) -> c_int;
    fn mst_sync_take(sync: *mut Handle, reply: *const u8, reply_len: usize, message_len: *mut usize,
                     list_len: *mut usize) -> c_int;
    fn mst_sync_answer(sync: *mut Handle, question: *const u8, question_len: usize, message_len: *mut usize,
                       list_len: *mut usize) -> c_int;
    fn mst_sync_answer_with(sync: *mut Handle, question: *const u8, question_len: usize, rows: *const u8, rows_len: usize,
                            is_all: c_int, most_bytes: usize, message_len: *mut usize) -> c_int;
}

/// What a call refuses.
#[derive(Debug, Clone, Copy, PartialEq, Eq)]
pub(crate) enum Refused {
    /// It asked for memory and got none.
    Memory,
    /// Bytes aren't a list or a message of the kind that it takes, or rows don't ascend.
    Malformed,
    /// There is no such key, or no catch-up is under way.
    Absent,
    /// The peer that asks has other settings.
    OtherSettings,
    /// The peer that was asked refused.
    ByPeer,
    /// The rows aren't those that a question needs.
    Rows,
}

impl From<OutOfMemory> for Refused {
    fn from(_: OutOfMemory) -> Self {
        Self::Memory
    }
}

/// What a status says, but for `MST_TOO_SHORT`. `MST_BAD_ARGUMENT` can't come: each argument is made here.
fn done(status: c_int) -> Result<(), Refused> {
    match status {
        DONE => Ok(()),
        NO_MEMORY => Err(Refused::Memory),
        MALFORMED => Err(Refused::Malformed),
        ABSENT => Err(Refused::Absent),
        OTHER_SETTINGS => Err(Refused::OtherSettings),
        REFUSED => Err(Refused::ByPeer),
        _ => unreachable!("a call of mst.h answered status {status}"),
    }
}

/// The same of a call that refuses nothing but memory.
fn done_or_no_memory(status: c_int) -> Result<(), OutOfMemory> {
    done(status).map_err(|refused| match refused {
        Refused::Memory => OutOfMemory,
        _ => unreachable!("a call of mst.h answered status {status}"),
    })
}

/// The version of the library.
pub(crate) fn version() -> &'static str {
    // SAFETY: the call answers a text of ASCII that ends with a zero byte and stays for as long as the program runs.
    unsafe { CStr::from_ptr(mst_version()) }.to_str().unwrap_or_default()
}

/// A call that gives back what a handle has.
type Free = unsafe extern "C" fn(*mut Handle);

/// A handle that has what a call made.
///
/// It is in a cell, since calls that leave the map as it was take a pointer to a mutable handle too.
struct Owned {
    handle: UnsafeCell<Handle>,
    free: Free,
}

// SAFETY: by the headers a handle goes from thread to thread where something orders the calls, and to move or lend a value to another thread
// does. `Owned` isn't `Sync`, since it has a cell: so a call that borrows it is never under way beside another.
unsafe impl Send for Owned {}

impl Owned {
    /// What a call makes, which is given a handle that has nothing.
    fn made(free: Free, call: impl FnOnce(*mut Handle) -> c_int) -> Result<Self, OutOfMemory> {
        let mut handle = Handle { at: ptr::null_mut() };
        done_or_no_memory(call(&mut handle))?;
        Ok(Self { handle: UnsafeCell::new(handle), free })
    }

    fn get(&self) -> *mut Handle {
        self.handle.get()
    }

    fn get_mut(&mut self) -> *mut Handle {
        self.handle.get_mut()
    }
}

impl Drop for Owned {
    fn drop(&mut self) {
        // SAFETY: the handle is one that a call of the same header made, and isn't used again.
        unsafe { (self.free)(self.handle.get_mut()) }
    }
}

/// The number that a call writes.
fn number(call: impl FnOnce(*mut usize) -> c_int) -> Result<usize, OutOfMemory> {
    let mut number = 0;
    done_or_no_memory(call(&mut number))?;
    Ok(number)
}

/// The 16 bytes that a call writes.
fn digest(call: impl FnOnce(*mut u8) -> c_int) -> Result<[u8; 16], Refused> {
    let mut digest = [0; 16];
    done(call(digest.as_mut_ptr()))?;
    Ok(digest)
}

/// A handle that has a tree.
pub(crate) struct Tree(Owned);

impl Tree {
    /// The empty tree with these settings; the page format is 1 or 2, and keys are fed in the way 0, 1 or 2.
    pub(crate) fn new(key: &[u8; 16], level_base: u8, page_format: u8, key_feed: u8) -> Result<Self, OutOfMemory> {
        // SAFETY: the handle has no tree, and the key is of 16 bytes.
        let new = |out| unsafe { mst_tree_new_as(out, key.as_ptr(), level_base, page_format, key_feed) };
        Owned::made(mst_tree_free, new).map(Self)
    }

    /// A copy of the tree.
    pub(crate) fn copy(&self) -> Result<Self, OutOfMemory> {
        // SAFETY: both are handles, of which the second has no tree, and no other call has the first.
        Owned::made(mst_tree_free, |out| unsafe { mst_tree_clone(self.0.get(), out) }).map(Self)
    }

    /// Sets a key to the digest of a value.
    pub(crate) fn upsert(&mut self, key: &[u8], value: &[u8]) -> Result<(), OutOfMemory> {
        // SAFETY: key and value are slices.
        done_or_no_memory(unsafe {
            mst_tree_upsert(self.0.get_mut(), key.as_ptr(), key.len(), value.as_ptr(), value.len())
        })
    }

    /// The same, with the digest at hand.
    pub(crate) fn upsert_digest(&mut self, key: &[u8], digest: &[u8; 16]) -> Result<(), OutOfMemory> {
        // SAFETY: the key is a slice, and the digest is of 16 bytes.
        done_or_no_memory(unsafe { mst_tree_upsert_digest(self.0.get_mut(), key.as_ptr(), key.len(), digest.as_ptr()) })
    }

    /// Takes a key out.
    pub(crate) fn remove(&mut self, key: &[u8]) -> Result<(), Refused> {
        // SAFETY: the key is a slice.
        done(unsafe { mst_tree_remove(self.0.get_mut(), key.as_ptr(), key.len()) })
    }

    /// Makes the rows of a list the map.
    pub(crate) fn load(&mut self, rows: &[u8]) -> Result<(), Refused> {
        // SAFETY: the list is a slice.
        done(unsafe { mst_tree_load(self.0.get_mut(), rows.as_ptr(), rows.len()) })
    }

    /// Makes the keys of a list of digests the map.
    pub(crate) fn load_digests(&mut self, list: &[u8]) -> Result<(), Refused> {
        // SAFETY: the list is a slice.
        done(unsafe { mst_tree_load_digests(self.0.get_mut(), list.as_ptr(), list.len()) })
    }

    /// The digest of the value at a key.
    pub(crate) fn find(&self, key: &[u8]) -> Result<[u8; 16], Refused> {
        // SAFETY: the key is a slice, `out` is of 16 bytes, and no other call has the handle.
        digest(|out| unsafe { mst_tree_find(self.0.get(), key.as_ptr(), key.len(), out) })
    }

    /// How many keys there are.
    pub(crate) fn len(&self) -> Result<usize, OutOfMemory> {
        // SAFETY: `out` is written to, and no other call has the handle.
        number(|out| unsafe { mst_tree_len(self.0.get(), out) })
    }

    /// The root hash.
    pub(crate) fn root_hash(&mut self) -> [u8; 16] {
        // SAFETY: `out` is of 16 bytes.
        digest(|out| unsafe { mst_tree_root_hash(self.0.get_mut(), out) }).expect("the call refuses nothing of a tree")
    }

    /// The list of page ranges, of about `guess` bytes.
    pub(crate) fn page_ranges(&self, guess: usize) -> Result<Vec<u8>, OutOfMemory> {
        // SAFETY: no other call has the handle, and `out` is memory of `len` bytes that nothing else has.
        let list = written(guess, |out, len, needed| unsafe { mst_tree_page_ranges(self.0.get(), out, len, needed) });
        list.map_err(|_| OutOfMemory)
    }

    /// The list of keys with the digests of their values.
    pub(crate) fn digests(&self) -> Result<Vec<u8>, OutOfMemory> {
        // SAFETY: no other call has the handle, and `out` is memory of `len` bytes that nothing else has.
        let list = written(0, |out, len, needed| unsafe { mst_tree_digests(self.0.get(), out, len, needed) });
        list.map_err(|_| OutOfMemory)
    }
}

/// A handle that has a replica.
pub(crate) struct Replica(Owned);

impl Replica {
    /// The replica without rows with these settings; the page format is 1 or 2.
    pub(crate) fn new(key: &[u8; 16], level_base: u8, page_format: u8) -> Result<Self, OutOfMemory> {
        // SAFETY: the handle has no replica, and the key is of 16 bytes.
        let new = |out| unsafe { mst_replica_new_with(out, key.as_ptr(), level_base, page_format) };
        Owned::made(mst_replica_free, new).map(Self)
    }

    /// Joins a value at a key.
    pub(crate) fn put(&mut self, key: &[u8], value: &[u8]) -> Result<(), OutOfMemory> {
        // SAFETY: key and value are slices.
        done_or_no_memory(unsafe {
            mst_replica_put(self.0.get_mut(), key.as_ptr(), key.len(), value.as_ptr(), value.len())
        })
    }

    /// The value at a key, of about `guess` bytes.
    pub(crate) fn get(&self, key: &[u8], guess: usize) -> Result<Vec<u8>, Refused> {
        // SAFETY: the key is a slice, no other call has the handle, and `out` is memory of `len` bytes that nothing else has.
        written(guess, |out, len, needed| unsafe {
            mst_replica_get(self.0.get(), key.as_ptr(), key.len(), out, len, needed)
        })
    }

    /// Whether a key is there.
    pub(crate) fn has(&self, key: &[u8]) -> Result<bool, OutOfMemory> {
        let mut needed = 0;
        // SAFETY: the key is a slice, no other call has the handle, and `out` is of no bytes.
        match unsafe { mst_replica_get(self.0.get(), key.as_ptr(), key.len(), ptr::null_mut(), 0, &mut needed) } {
            ABSENT => Ok(false),
            TOO_SHORT => Ok(true),
            status => done_or_no_memory(status).map(|()| true),
        }
    }

    /// How many rows there are.
    pub(crate) fn len(&self) -> usize {
        // SAFETY: `out` is written to, and no other call has the handle.
        number(|out| unsafe { mst_replica_len(self.0.get(), out) }).expect("the call refuses nothing of a replica")
    }

    /// The root hash.
    pub(crate) fn root_hash(&mut self) -> [u8; 16] {
        // SAFETY: `out` is of 16 bytes.
        digest(|out| unsafe { mst_replica_root_hash(self.0.get_mut(), out) })
            .expect("the call refuses nothing of a replica")
    }

    /// The list of rows, of about `guess` bytes.
    pub(crate) fn rows(&self, guess: usize) -> Result<Vec<u8>, OutOfMemory> {
        // SAFETY: no other call has the handle, and `out` is memory of `len` bytes that nothing else has.
        let list = written(guess, |out, len, needed| unsafe { mst_replica_rows(self.0.get(), out, len, needed) });
        list.map_err(|_| OutOfMemory)
    }

    /// The reply to a question.
    pub(crate) fn answer(&mut self, question: &[u8]) -> Result<Vec<u8>, Refused> {
        let mut len = 0;
        // SAFETY: the question is a slice, and `len` is written to.
        done(unsafe { mst_replica_answer(self.0.get_mut(), question.as_ptr(), question.len(), &mut len) })?;
        Ok(self.message(len)?)
    }

    /// The first question of a catch-up, which begins.
    pub(crate) fn ask(&mut self) -> Result<Vec<u8>, OutOfMemory> {
        // SAFETY: `out` is written to.
        let len = number(|out| unsafe { mst_replica_ask(self.0.get_mut(), out) })?;
        self.message(len)
    }

    /// Takes a reply, and answers the next question, or how many rows came. Refused, it answers how many of them are joined, too.
    pub(crate) fn take(&mut self, reply: &[u8]) -> Result<Step, (Refused, usize)> {
        let (mut len, mut joined) = (0, 0);
        // SAFETY: the reply is a slice, and `len` and `joined` are written to.
        let status = unsafe { mst_replica_take(self.0.get_mut(), reply.as_ptr(), reply.len(), &mut len, &mut joined) };
        done(status).map_err(|refused| (refused, joined))?;
        if len == 0 {
            return Ok(Step::Joined(joined));
        }
        self.message(len).map(Step::Ask).map_err(|OutOfMemory| (Refused::Memory, 0))
    }

    /// The message that is kept, of `len` bytes.
    fn message(&self, len: usize) -> Result<Vec<u8>, OutOfMemory> {
        // SAFETY: no other call has the handle, and `out` is memory of `len` bytes that nothing else has.
        let message = written(len, |out, len, needed| unsafe { mst_replica_message(self.0.get(), out, len, needed) });
        message.map_err(|_| OutOfMemory)
    }
}

/// A handle that has a side of a sync.
pub(crate) struct Side(Owned);

/// The reply to a question, or the list of what it needs.
pub(crate) enum Answered {
    Reply(Vec<u8>),
    Needs(Vec<u8>),
}

impl Side {
    /// The side without keys with these settings; the page format is 1 or 2.
    pub(crate) fn new(key: &[u8; 16], level_base: u8, page_format: u8) -> Result<Self, OutOfMemory> {
        // SAFETY: the handle has no side, and the key is of 16 bytes.
        let new = |out| unsafe { mst_sync_new_with(out, key.as_ptr(), level_base, page_format) };
        Owned::made(mst_sync_free, new).map(Self)
    }

    /// Sets a key to the digest of a value.
    pub(crate) fn set(&mut self, key: &[u8], value: &[u8]) -> Result<(), OutOfMemory> {
        // SAFETY: key and value are slices.
        done_or_no_memory(unsafe {
            mst_sync_set(self.0.get_mut(), key.as_ptr(), key.len(), value.as_ptr(), value.len())
        })
    }

    /// Takes a key out.
    pub(crate) fn remove(&mut self, key: &[u8]) -> Result<(), Refused> {
        // SAFETY: the key is a slice.
        done(unsafe { mst_sync_remove(self.0.get_mut(), key.as_ptr(), key.len()) })
    }

    /// The digest of the value at a key.
    pub(crate) fn find(&self, key: &[u8]) -> Result<[u8; 16], Refused> {
        // SAFETY: the key is a slice, `out` is of 16 bytes, and no other call has the handle.
        digest(|out| unsafe { mst_sync_find(self.0.get(), key.as_ptr(), key.len(), out) })
    }

    /// How many keys there are.
    pub(crate) fn len(&self) -> Result<usize, OutOfMemory> {
        // SAFETY: `out` is written to, and no other call has the handle.
        number(|out| unsafe { mst_sync_len(self.0.get(), out) })
    }

    /// The root hash.
    pub(crate) fn root_hash(&mut self) -> [u8; 16] {
        // SAFETY: `out` is of 16 bytes.
        digest(|out| unsafe { mst_sync_root_hash(self.0.get_mut(), out) }).expect("the call refuses nothing of a side")
    }

    /// The first question of a catch-up, which begins.
    pub(crate) fn ask(&mut self) -> Result<Vec<u8>, OutOfMemory> {
        // SAFETY: `out` is written to.
        let len = number(|out| unsafe { mst_sync_ask(self.0.get_mut(), out) })?;
        self.message(len)
    }

    /// Takes a reply, and answers the next question, or the rows that came.
    pub(crate) fn take(&mut self, reply: &[u8]) -> Result<Next, Refused> {
        let (mut len, mut list_len) = (0, 0);
        // SAFETY: the reply is a slice, and `len` and `list_len` are written to.
        done(unsafe { mst_sync_take(self.0.get_mut(), reply.as_ptr(), reply.len(), &mut len, &mut list_len) })?;
        if len == 0 {
            return Ok(Next::Came(Rows::of_list(self.list(list_len)?)));
        }
        Ok(Next::Ask(self.message(len)?))
    }

    /// The reply to a question, or what it needs of the rows.
    pub(crate) fn answer(&mut self, question: &[u8]) -> Result<Answered, Refused> {
        let (mut len, mut list_len) = (0, 0);
        // SAFETY: the question is a slice, and `len` and `list_len` are written to.
        let status =
            unsafe { mst_sync_answer(self.0.get_mut(), question.as_ptr(), question.len(), &mut len, &mut list_len) };
        if status == NEEDS_ROWS {
            return Ok(Answered::Needs(self.list(list_len)?));
        }
        done(status)?;
        Ok(Answered::Reply(self.message(len)?))
    }

    /// The reply to a question by a list of rows that ascend: all that it needs, or the first of them. It ends with the entry that brings it to
    /// `most` bytes.
    pub(crate) fn answer_with(
        &mut self,
        question: &[u8],
        rows: &[u8],
        is_all: bool,
        most: usize,
    ) -> Result<Vec<u8>, Refused> {
        let mut len = 0;
        let (question_at, question_len, rows_at, rows_len) =
            (question.as_ptr(), question.len(), rows.as_ptr(), rows.len());
        // SAFETY: the question and the list are slices, and `len` is written to.
        let status = unsafe {
            let handle = self.0.get_mut();
            mst_sync_answer_with(handle, question_at, question_len, rows_at, rows_len, is_all.into(), most, &mut len)
        };
        // (the rows ascend: so a bad argument is the first question of a catch-up, which needs none)
        if status == NEEDS_ROWS || status == BAD_ARGUMENT {
            return Err(Refused::Rows);
        }
        done(status)?;
        Ok(self.message(len)?)
    }

    /// The message that is kept, of `len` bytes.
    fn message(&self, len: usize) -> Result<Vec<u8>, OutOfMemory> {
        // SAFETY: no other call has the handle, and `out` is memory of `len` bytes that nothing else has.
        let message = written(len, |out, len, needed| unsafe { mst_sync_message(self.0.get(), out, len, needed) });
        message.map_err(|_| OutOfMemory)
    }

    /// The list that is kept, of `len` bytes.
    fn list(&self, len: usize) -> Result<Vec<u8>, OutOfMemory> {
        // SAFETY: no other call has the handle, and `out` is memory of `len` bytes that nothing else has.
        let list = written(len, |out, len, needed| unsafe { mst_sync_list(self.0.get(), out, len, needed) });
        list.map_err(|_| OutOfMemory)
    }
}

/// The list of the key ranges in which two lists of page ranges differ.
pub(crate) fn difference(local: &[u8], peer: &[u8]) -> Result<Vec<u8>, Refused> {
    const GUESS: usize = 1024;
    // SAFETY: both lists are slices, and `out` is memory of `len` bytes that nothing else has.
    written(GUESS, |out, len, needed| unsafe {
        mst_diff(local.as_ptr(), local.len(), peer.as_ptr(), peer.len(), out, len, needed)
    })
}

/// A range of a list: the first key, the last, and in a list of page ranges the page's digest.
pub(crate) type Entry<'a> = (&'a [u8], &'a [u8], Option<&'a [u8; 16]>);

/// The range of a list of page ranges or key ranges that is at `at`, which goes to the next; `None` after the last.
pub(crate) fn next_range<'a>(list: &'a [u8], at: &mut usize) -> Result<Option<Entry<'a>>, Refused> {
    let mut found = Range { first: ptr::null(), first_len: 0, last: ptr::null(), last_len: 0, digest: ptr::null() };
    // SAFETY: the list is a slice, which lives for as long as what is answered. A place beyond its end would be MST_BAD_ARGUMENT.
    match done(unsafe { mst_ranges_next(list.as_ptr(), list.len(), at, &mut found) }) {
        Ok(()) => {}
        Err(Refused::Absent) => return Ok(None),
        Err(refused) => return Err(refused),
    }
    // SAFETY: what a call that is done writes points to bytes of the list, as many as it says, and to 16 of a digest.
    Ok(Some(unsafe {
        (
            slice::from_raw_parts(found.first, found.first_len),
            slice::from_raw_parts(found.last, found.last_len),
            found.digest.cast::<[u8; 16]>().as_ref(),
        )
    }))
}

/// The bytes that a call writes to `out`, which is of `len` bytes. It is made once more where they are more than the guess.
fn written(guess: usize, mut call: impl FnMut(*mut u8, usize, *mut usize) -> c_int) -> Result<Vec<u8>, Refused> {
    let mut bytes: Vec<u8> = Vec::new();
    let mut needed = guess;
    loop {
        bytes.try_reserve_exact(needed).map_err(|_| Refused::Memory)?;
        let status = call(bytes.as_mut_ptr(), bytes.capacity(), &mut needed);
        if status != TOO_SHORT {
            done(status)?;
            // SAFETY: a call that is done wrote the first `needed` bytes, no more than there are.
            unsafe { bytes.set_len(needed) };
            return Ok(bytes);
        }
    }
}
