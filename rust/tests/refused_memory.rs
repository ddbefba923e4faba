//! Memory that the library below asks for and isn't given: each request of each call is refused in turn. The call returns an error, and the tree and
//! the rows are as before and go on.
//!
//! The functions below take the place of those of C's library in this program. They refuse what the proved library asks for, and nothing that Rust's
//! own collections do.
mod common;

use common::{joined, Model};
use merkle_search_tree::{
    replica::{Fault, Replica, Step},
    sync::{answer, catch_up, serve, take, Answer, Failed, SyncTree},
    OutOfMemory,
};
use std::{
    alloc::{GlobalAlloc, Layout, System},
    cell::{Cell, RefCell},
    ffi::c_void,
    io::ErrorKind,
    os::unix::net::UnixStream,
    ptr, thread,
};

extern "C" {
    fn __libc_malloc(size: usize) -> *mut c_void;
    fn __libc_realloc(old: *mut c_void, size: usize) -> *mut c_void;
}

thread_local! {
    /// How many requests of this thread are granted before one is refused; none is refused if it is negative.
    static LEFT: Cell<i64> = const { Cell::new(-1) };
    /// Whether a request is one of Rust's own.
    static IS_OF_RUST: Cell<bool> = const { Cell::new(false) };
}

fn is_refused() -> bool {
    if IS_OF_RUST.get() || LEFT.get() < 0 {
        return false;
    }
    LEFT.set(LEFT.get() - 1);
    LEFT.get() < 0
}

#[no_mangle]
extern "C" fn malloc(size: usize) -> *mut c_void {
    // SAFETY: this is what the library of C does.
    unsafe {
        if is_refused() {
            ptr::null_mut()
        } else {
            __libc_malloc(size)
        }
    }
}

/// # Safety
///
/// As of C.
#[no_mangle]
unsafe extern "C" fn realloc(old: *mut c_void, size: usize) -> *mut c_void {
    if is_refused() {
        ptr::null_mut()
    } else {
        __libc_realloc(old, size)
    }
}

/// Rust's own requests, which are granted.
struct Granted;

impl Granted {
    fn of_rust<T>(call: impl FnOnce() -> T) -> T {
        let was = IS_OF_RUST.replace(true);
        let made = call();
        IS_OF_RUST.set(was);
        made
    }
}

// SAFETY: what is given is the system's.
unsafe impl GlobalAlloc for Granted {
    unsafe fn alloc(&self, layout: Layout) -> *mut u8 {
        Self::of_rust(|| System.alloc(layout))
    }

    unsafe fn dealloc(&self, at: *mut u8, layout: Layout) {
        System.dealloc(at, layout);
    }

    unsafe fn realloc(&self, at: *mut u8, layout: Layout, size: usize) -> *mut u8 {
        Self::of_rust(|| System.realloc(at, layout, size))
    }
}

#[global_allocator]
static GRANTED: Granted = Granted;

/// Makes a call with its first request refused, with its second, and so on, until it makes no more, and says how many it made.
fn with_each_refused<T>(mut call: impl FnMut() -> T, mut refused: impl FnMut(T), done: impl FnOnce(T)) -> i64 {
    for granted in 0.. {
        LEFT.set(granted);
        let made = call();
        let met_none = LEFT.replace(-1) >= 0;
        if met_none {
            done(made);
            return granted;
        }
        refused(made);
    }
    unreachable!("a call makes less than 2^63 requests")
}

fn every(step: usize) -> Model {
    (0..300).step_by(step).map(|i| (format!("{i}").into_bytes(), vec![b'0' + step as u8; 20])).collect()
}

fn is_in_step(tree: &mut SyncTree, rows: &Model) -> bool {
    tree.root_hash() == Replica::from_iter(rows).root_hash()
}

#[test]
fn a_set_that_is_refused() {
    let rows = every(3);
    let (mut tree, mut wanted) = (SyncTree::from_iter(&rows), rows.clone());
    let before = tree.root_hash();
    wanted.insert(b"new".to_vec(), b"1".to_vec());
    let tree = RefCell::new(tree);
    let requests = with_each_refused(
        || tree.borrow_mut().try_set("new", "1"),
        |made| {
            assert_eq!(made, Err(OutOfMemory));
            assert_eq!(tree.borrow_mut().root_hash(), before);
        },
        |made| assert_eq!(made, Ok(())),
    );
    assert!(requests > 0 && is_in_step(&mut tree.into_inner(), &wanted), "{requests}");
}

/// The replies that a peer gives to a catch-up.
fn replies(left: &Model, right: &Model) -> Vec<Vec<u8>> {
    let (mut ours, mut rows) = (SyncTree::from_iter(left), left.clone());
    let (mut theirs, mut their_rows, mut replies) = (SyncTree::from_iter(right), right.clone(), Vec::new());
    let mut question = ours.ask().unwrap();
    loop {
        replies.push(answer(&mut theirs, &mut their_rows, &question).unwrap());
        match take(&mut ours, &mut rows, replies.last().unwrap()).unwrap() {
            Step::Ask(next) => question = next,
            Step::Joined(_) => return replies,
        }
    }
}

#[test]
fn questions_and_replies_that_are_refused() {
    let (left, right) = (every(2), every(3));
    let replies = replies(&left, &right);
    let (mut requests, mut tree) = (0, SyncTree::from_iter(&left));
    let before = tree.root_hash();
    for at in 0..replies.len() {
        let tree = RefCell::new(&mut tree);
        requests += with_each_refused(
            || {
                let granted = LEFT.replace(-1);
                let mut tree = tree.borrow_mut();
                tree.ask().unwrap();
                replies[..at].iter().for_each(|reply| drop(tree.take(reply).unwrap()));
                LEFT.set(granted);
                tree.take(&replies[at]).map(drop)
            },
            |made| {
                assert_eq!(made, Err(Fault::OutOfMemory { joined: 0 }));
                // The catch-up is over, and the tree is as before.
                assert!(matches!(tree.borrow_mut().take(&replies[at]), Err(Fault::NotAsking)));
                assert_eq!(tree.borrow_mut().root_hash(), before);
            },
            |made| assert_eq!(made, Ok(())),
        );
    }
    let asking = RefCell::new(&mut tree);
    requests += with_each_refused(
        || asking.borrow_mut().ask().map(drop),
        |made| assert_eq!(made, Err(Fault::OutOfMemory { joined: 0 })),
        |made| assert_eq!(made, Ok(())),
    );
    assert!(requests > 50, "{requests}");
    let mut rows = left.clone();
    tree.ask().unwrap();
    for reply in &replies {
        take(&mut tree, &mut rows, reply).unwrap();
    }
    assert_eq!(rows, joined(&left, &right));
    assert!(is_in_step(&mut tree, &rows));
}

#[test]
fn answers_that_are_refused() {
    let rows = every(3);
    let mut other = SyncTree::from_iter(&every(2));
    let questions = [
        other.ask().unwrap(),
        vec![1, 2, 16, 1, 0, 0],
        vec![1, 3, 16, 1, 0, 0],
        [&[1, 4, 1, 2][..], b"\x010"].concat(),
        vec![1, 5, 1, 0, 0],
    ];
    let mut tree = SyncTree::from_iter(&rows);
    for question in questions {
        let whole = answer(&mut tree, &mut rows.clone(), &question).unwrap();
        let (before, tree, mut errors) = (tree.root_hash(), RefCell::new(&mut tree), 0);
        with_each_refused(
            || answer(&mut tree.borrow_mut(), &mut rows.clone(), &question),
            |made| {
                match made {
                    // It did without.
                    Ok(reply) => assert_eq!(reply, whole),
                    Err(Failed::Io(error)) if error.kind() == ErrorKind::OutOfMemory => errors += 1,
                    Err(other) => panic!("{other:?}"),
                }
                assert_eq!(tree.borrow_mut().root_hash(), before);
            },
            |made| assert_eq!(made.unwrap(), whole),
        );
        assert!(errors > 0);
    }
    assert!(matches!(tree.answer(&[1, 5, 1, 0, 0]), Ok(Answer::NeedsRanges(_))));
}

#[test]
fn a_catch_up_over_a_connection_that_is_refused() {
    let (left, right) = (every(2), every(3));
    let (mut tree, mut rows) = (SyncTree::from_iter(&left), left.clone());
    let (mut theirs, mut their_rows) = (SyncTree::from_iter(&right), right.clone());
    let caught_up = |granted, tree: &mut SyncTree, rows: &mut Model, theirs: &mut SyncTree, their_rows: &mut Model| {
        let (mut connection, mut their_end) = UnixStream::pair().unwrap();
        thread::scope(|scope| {
            scope.spawn(move || serve(theirs, their_rows, &mut their_end));
            LEFT.set(granted);
            let came = catch_up(tree, rows, &mut connection);
            LEFT.set(-1);
            drop(connection);
            came
        })
    };
    for granted in 0..20 {
        let ended = caught_up(granted, &mut tree, &mut rows, &mut theirs, &mut their_rows);
        assert!(matches!(ended, Err(Failed::Io(error)) if error.kind() == ErrorKind::OutOfMemory));
        assert!(rows == left && is_in_step(&mut tree, &rows));
    }
    assert_eq!(caught_up(-1, &mut tree, &mut rows, &mut theirs, &mut their_rows).unwrap(), right.len());
    assert!(rows == joined(&left, &right) && is_in_step(&mut tree, &rows));
}
