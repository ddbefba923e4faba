//! Rows that are elsewhere, as in a database: a tree of their digests in memory, and catch-ups with others by messages, whose cost is what
//! differs.
//!
//! A [`SyncTree`] has a digest for each row. It is loaded by one scan when the program starts, and set after each commit; it is never stored.
//! The trait [`Rows`] says where the rows are: the value at a key, the rows in a range, and a way to join rows that came. A `BTreeMap` is such
//! rows, in which the greater value stays.
//!
//! Over a connection that carries bytes in order, one side calls [`catch_up`] and the other [`serve`], and then the other way round. The messages
//! and the framing are those of [`replica`]. So the peer may have its rows elsewhere too, or be a
//! [`Replica`](crate::replica::Replica), if both join rows by one rule: in a `Replica` the greater value stays. The packages for Python and
//! C speak them too.
//!
//! ```
//! use merkle_search_tree::{
//!     replica::Replica,
//!     sync::{catch_up, serve, SyncTree},
//! };
//! use std::{collections::BTreeMap, io, os::unix::net::UnixStream, thread};
//!
//! # fn main() -> io::Result<()> {
//! let rows = [("apple", "1131 ten"), ("kiwi", "1130 one")];
//! let mut rows: BTreeMap<Vec<u8>, Vec<u8>> = rows.map(|(key, value)| (key.into(), value.into())).into();
//! let mut tree = SyncTree::default();
//! tree.load(&mut rows).unwrap();
//!
//! let mut laptop = Replica::from_iter([("kiwi", "1207 two"), ("melon", "1208 six")]);
//! let (mut ours, mut theirs) = UnixStream::pair()?;
//! let peer = thread::spawn(move || -> io::Result<Replica> {
//!     laptop.serve(&mut theirs)?;
//!     laptop.catch_up(&mut theirs)?;
//!     Ok(laptop)
//! });
//! assert_eq!(catch_up(&mut tree, &mut rows, &mut ours)?, 2);
//! serve(&mut tree, &mut rows, &mut ours)?;
//! assert_eq!(rows[&b"kiwi"[..]], b"1207 two");
//! assert_eq!(tree.root_hash(), peer.join().unwrap()?.root_hash());
//! # Ok(())
//! # }
//! ```
//!
//! # Write rows
//!
//! Commit first, then [`SyncTree::set`] the key to the value that the row now has. If threads share the tree, hold its lock from before the
//! commit until the key is set: else two writes of one key may reach the tree in another order than the table. To remove a row for good, write a
//! value that says so: a row that is deleted comes back from the next peer that has it.
//!
//! # If a step fails
//!
//! No row is lost, whatever fails:
//!
//! | What happens | What follows |
//! |---|---|
//! | The peer breaks off, or sends what is no reply | An error. Rows and tree are as before; begin again |
//! | [`Rows::join`] fails | [`Failed::Rows`]. None of the rows is joined, and the tree is as before. If it isn't known whether the commit was done, call [`SyncTree::load`] |
//! | The program ends between the commit and the tree | The next start loads the tree from the rows |
//! | The connection is lost after the commit | An error, since the peer can't be told of the end. The rows are joined and the tree is set |
//! | [`Rows::value`] or [`Rows::rows_in`] fails | [`Failed::Rows`]. The peer gets no reply; rows and tree are as before |
//! | [`Rows::rows_in`] gives keys in another order than that of their bytes | [`Failed::NotAscending`], which names them, from a load too |
//! | Another program writes or deletes rows | Neither the tree nor peers know of it until [`SyncTree::rescan`] of a range or [`SyncTree::load`]. [`SyncTree::verify`] names the keys |
//!
//! # Without a connection, and under tokio
//!
//! [`take`] and [`answer`] do one step, for any other transport. Below them, [`SyncTree::ask`], [`SyncTree::take`], [`SyncTree::answer`] and
//! [`SyncTree::answer_with`] read and write neither a connection nor a row: code under tokio awaits both in between. They hand out what is to be
//! sent, which rows a reply needs, and which rows came:
//!
//! ```
//! use merkle_search_tree::{
//!     replica::Fault,
//!     sync::{Answer, Next, SyncTree},
//! };
//! use std::collections::BTreeMap;
//!
//! type Table = BTreeMap<Vec<u8>, Vec<u8>>;
//!
//! /// The reply to a question of a peer.
//! fn reply_to(question: &[u8], tree: &mut SyncTree, table: &Table) -> Result<Vec<u8>, Fault> {
//!     match tree.answer(question)? {
//!         Answer::Reply(reply) => Ok(reply),
//!         Answer::NeedsKeys(keys) => {
//!             let mut found = keys.found();
//!             for key in keys.iter() {
//!                 if !found.value(key, table.get(key).map(Vec::as_slice)) {
//!                     break; // they are enough
//!                 }
//!             }
//!             tree.answer_with(question, found)
//!         }
//!         Answer::NeedsRanges(ranges) => {
//!             let mut found = ranges.found();
//!             for range in ranges.iter() {
//!                 if !table.range::<[u8], _>(range).all(|(key, value)| found.row(range, key, value)) {
//!                     break;
//!                 }
//!             }
//!             tree.answer_with(question, found)
//!         }
//!     }
//! }
//!
//! # fn main() -> Result<(), Fault> {
//! let mut theirs = Table::from([(b"kiwi".to_vec(), b"1130 one".to_vec())]);
//! let mut their_tree: SyncTree = theirs.iter().collect();
//! let (mut ours, mut tree) = (Table::new(), SyncTree::default());
//!
//! let mut question = tree.ask()?;
//! let came = loop {
//!     let reply = reply_to(&question, &mut their_tree, &theirs)?; // what a connection would carry
//!     match tree.take(&reply)? {
//!         Next::Ask(next) => question = next,
//!         Next::Came(came) => break came,
//!     }
//! };
//! for (key, value) in &came {
//!     ours.insert(key.to_vec(), value.to_vec()); // a join, and a commit
//!     tree.set(key, value);
//! }
//! assert_eq!(ours, theirs);
//! # Ok(())
//! # }
//! ```
use crate::{
    builder::{PageFormat, LEVEL_BASE},
    digest::{siphash::SipHasher, Digest, PageDigest, RootHash, ValueDigest},
    granted,
    keys::keys_in,
    list,
    register::Untaken,
    replica::{self, answering, asking, expect_same, Fault, Limits, Step, TOO_MANY_ROWS},
    settings::Settings,
    sys::{self, Answered, Refused},
    wire::unexpected,
    OutOfMemory,
};
use std::{
    collections::{BTreeMap, BTreeSet},
    convert::Infallible,
    error::Error,
    fmt,
    io::{self, ErrorKind, Read, Write},
    num::NonZeroU8,
    ops::{Bound, DerefMut, RangeBounds},
};

/// About how many bytes of rows are looked up for one reply; the peer asks again for the rest.
const MOST: usize = 1 << 24;

/// At how many bytes a reply ends for which all rows were looked up.
const MOST_OF_A_REPLY: usize = 1 << 26;

/// The rows that came in a catch-up, in the order of their keys: those of the peer that this side lacks, or has with another digest.
pub type Came = replica::Rows;

/// A row: its key and its value.
pub type Row = (Vec<u8>, Vec<u8>);

/// What rows are given to, one by one; it says whether more are wanted.
pub type Give<'a> = dyn FnMut(&[u8], &[u8]) -> bool + 'a;

/// Rows that are elsewhere, such as in a table of a database. Their keys are byte strings, and so are their values.
///
/// [`catch_up`] calls `join` alone, at its end. [`serve`] calls the other two, whenever a reply needs rows.
pub trait Rows {
    /// Why a call failed.
    type Error;

    /// The value at a key, if the key is there.
    fn value(&mut self, key: &[u8]) -> Result<Option<Vec<u8>>, Self::Error>;

    /// Gives the rows in a range, in the order of the bytes of their keys, until `give` says that no more are wanted. In SQL these are the rows
    /// with `key >= first AND key < end`; either bound may be a key with a byte 0 after it. A reply wants some 16 MiB of rows at most, so read no more
    /// of them than are taken.
    fn rows_in(&mut self, range: Range<'_>, give: &mut Give<'_>) -> Result<(), Self::Error>;

    /// Joins rows that came with those that are there, in one transaction: all of them, or none if it fails. It returns the rows that it
    /// changed, as they now are; the tree is set to these after it.
    ///
    /// Of a value that came and one that is there, a rule makes one. Neither their order nor how several are grouped may matter, and two equal
    /// values must give that value. "The greater value" is such a rule.
    fn join(&mut self, came: &Came) -> Result<Vec<Row>, Self::Error>;
}

/// Of two values the greater stays.
impl Rows for BTreeMap<Vec<u8>, Vec<u8>> {
    type Error = Infallible;

    fn value(&mut self, key: &[u8]) -> Result<Option<Vec<u8>>, Infallible> {
        Ok(self.get(key).cloned())
    }

    fn rows_in(&mut self, range: Range<'_>, give: &mut Give<'_>) -> Result<(), Infallible> {
        self.range::<[u8], _>(range).all(|(key, value)| give(key, value));
        Ok(())
    }

    fn join(&mut self, came: &Came) -> Result<Vec<Row>, Infallible> {
        let mut changed = Vec::new();
        for (key, value) in came {
            if self.get(key).is_none_or(|held| held[..] < *value) {
                self.insert(key.to_vec(), value.to_vec());
                changed.push((key.to_vec(), value.to_vec()));
            }
        }
        Ok(changed)
    }
}

/// The keys from `first` on, or those of them below `end`. A map takes it: `map.range::<[u8], _>(range)`.
#[derive(Debug, Clone, Copy, PartialEq, Eq)]
pub struct Range<'a> {
    /// The least key that is in the range.
    pub first: &'a [u8],
    /// The key below which the others are, if there is one; it is above `first`.
    pub end: Option<&'a [u8]>,
}

impl Range<'_> {
    /// The range of all keys.
    pub const ALL: Self = Self { first: &[], end: None };
}

impl RangeBounds<[u8]> for Range<'_> {
    fn start_bound(&self) -> Bound<&[u8]> {
        Bound::Included(self.first)
    }

    fn end_bound(&self) -> Bound<&[u8]> {
        self.end.map_or(Bound::Unbounded, Bound::Excluded)
    }
}

/// What a question comes to.
#[derive(Debug)]
pub enum Answer {
    /// This reply is to be sent to the peer.
    Reply(Vec<u8>),
    /// The reply needs the rows at these keys: look them up, and call [`SyncTree::answer_with`].
    NeedsKeys(Keys),
    /// The reply needs the rows in these ranges, in the same way.
    NeedsRanges(Ranges),
}

/// Keys whose rows are needed, in the order of the question, which is no order of keys. Those of a hostile peer may come twice.
#[derive(Debug)]
pub struct Keys(replica::Rows);

impl Keys {
    /// Goes over the keys.
    pub fn iter(&self) -> impl Iterator<Item = &[u8]> + '_ {
        self.0.iter().map(|(key, _)| key)
    }

    /// What takes their rows, until they are some 16 MiB.
    pub fn found(&self) -> Found {
        self.found_within(MOST)
    }

    /// The same until they are this many bytes.
    pub fn found_within(&self, bytes: usize) -> Found {
        Found::new(bytes, true)
    }
}

/// Ranges whose rows are needed, in the order of the question. Those of a hostile peer may overlap.
#[derive(Debug)]
pub struct Ranges(replica::Rows);

impl Ranges {
    /// Goes over the ranges, but for those that hold no key.
    pub fn iter(&self) -> impl Iterator<Item = Range<'_>> + '_ {
        self.all().filter(|range| range.end.is_none_or(|end| range.first < end))
    }

    fn all(&self) -> impl Iterator<Item = Range<'_>> + '_ {
        self.0.iter().map(|(first, end)| Range { first, end: end.strip_prefix(&[BELOW]) })
    }

    /// What takes their rows, until they are some 16 MiB.
    pub fn found(&self) -> Found {
        self.found_within(MOST)
    }

    /// The same until they are this many bytes.
    pub fn found_within(&self, bytes: usize) -> Found {
        let mut before = Some(&[][..]);
        let ascend = self.all().all(|range| {
            let above = before.is_some_and(|before| before <= range.first);
            before = range.end;
            above && range.end.is_none_or(|end| range.first <= end)
        });
        Found::new(bytes, ascend)
    }
}

/// In what is needed, the byte before a key below which keys are.
const BELOW: u8 = 1;

/// In what is needed, the byte of a single key.
const SINGLE: u8 = 2;

impl Answer {
    fn of(answered: Answered) -> Self {
        match answered {
            Answered::Reply(reply) => Self::Reply(reply),
            Answered::Needs(list) => {
                let needs = replica::Rows::of_list(list);
                // All are keys, or none is.
                let are_keys = needs.iter().next().is_some_and(|(_, end)| end == [SINGLE]);
                if are_keys {
                    Self::NeedsKeys(Keys(needs))
                } else {
                    Self::NeedsRanges(Ranges(needs))
                }
            }
        }
    }
}

/// The rows that were looked up for a reply. Add them in the order in which the [`Keys`] or the [`Ranges`] need them, and those of a range in the
/// order of their keys, until a call says that they are enough.
pub struct Found {
    rows: list::Writer,
    /// Where the key of the last row is in the list.
    last: std::ops::Range<usize>,
    /// Whether the keys ascend strictly.
    ascend: bool,
    /// Whether they can be told as the first rows that are needed: ranges ascend, and no key was without a row.
    are_first: bool,
    /// How many bytes of rows are enough.
    most: usize,
    is_enough: bool,
    /// How many bytes a reply has at least once it has all but the last of what was looked up; and once it has that.
    least: [usize; 2],
}

impl Found {
    fn new(most: usize, are_first: bool) -> Self {
        const FRONT: usize = 2;
        let rows = list::Writer::new(b"MSTr");
        Self { rows, last: 0..0, ascend: true, are_first, most, is_enough: false, least: [FRONT; 2] }
    }

    /// Adds the value at one of the [`Keys`], or that there is none, and says whether those at the keys after it are needed.
    pub fn value(&mut self, key: &[u8], value: Option<&[u8]>) -> bool {
        match value {
            Some(value) => self.add(key, value, 0),
            None if self.is_enough => false,
            None => {
                self.are_first = false;
                self.least = [self.least[1], self.least[1] + 1];
                true
            }
        }
    }

    /// Adds a row in one of the [`Ranges`], and says whether others are needed, there or in the ranges after it.
    pub fn row(&mut self, range: Range<'_>, key: &[u8], value: &[u8]) -> bool {
        // A reply has of a key what it doesn't share with the row before, or with the bound of the range.
        let shared = shared(key, self.last_key()).max(shared(key, range.first));
        self.add(key, value, key.len() - shared)
    }

    /// Adds a row, of whose key a reply has at least this many bytes.
    fn add(&mut self, key: &[u8], value: &[u8], own: usize) -> bool {
        if self.is_enough {
            return false;
        }
        let (at, is_first) = (self.rows.len(), self.rows.is_empty());
        self.ascend &= is_first || self.last_key() < key;
        // The row by which they are enough is one that the reply won't get to: so the reply says that more are there.
        self.is_enough = !is_first && at >= self.most;
        self.rows.push(key, value, &[]);
        self.last = at + 8..at + 8 + key.len();
        // At least a byte says what the key shares, or that there is a value, and another one how long the value is.
        self.least = [self.least[1], self.least[1] + 2 + own + value.len()];
        !self.is_enough
    }

    /// The key of the last row, if there is one.
    fn last_key(&self) -> &[u8] {
        self.rows.part(self.last.clone())
    }

    /// The list of the rows in the order of their keys; whether they are told as all that are needed; and at how many bytes the reply ends.
    ///
    /// If they are enough, it ends before it needs a row that wasn't looked up. So they may be told as all, too, if they can't be told as the
    /// first.
    fn into_list(self) -> (Vec<u8>, bool, usize) {
        let most = if self.is_enough { self.least[0] } else { MOST_OF_A_REPLY };
        let list = self.rows.into_bytes();
        (if self.ascend { list } else { in_order(list) }, !(self.is_enough && self.are_first), most)
    }
}

impl fmt::Debug for Found {
    fn fmt(&self, f: &mut fmt::Formatter<'_>) -> fmt::Result {
        f.debug_struct("Found").field("is_enough", &self.is_enough).finish_non_exhaustive()
    }
}

/// How many bytes both begin with.
fn shared(one: &[u8], other: &[u8]) -> usize {
    one.iter().zip(other).take_while(|(one, other)| one == other).count()
}

/// A list of rows in the order of their keys, each key once.
fn in_order(list: Vec<u8>) -> Vec<u8> {
    let rows = replica::Rows::of_list(list);
    let mut sorted = Vec::from_iter(&rows);
    sorted.sort_by_key(|row| row.0);
    sorted.dedup_by_key(|row| row.0);
    let mut list = list::Writer::new(b"MSTr");
    sorted.into_iter().for_each(|(key, value)| list.push(key, value, &[]));
    list.into_bytes()
}

/// What comes next in a catch-up.
#[derive(Debug)]
pub enum Next {
    /// This question is to be sent to the peer.
    Ask(Vec<u8>),
    /// These rows came, and the catch-up is over. Join them with the rows that are there, and [`SyncTree::set`] the keys to what the rows
    /// then are.
    Came(Came),
}

/// A tree of the digests of rows that are elsewhere, which asks peers what they have and answers them.
///
/// A call that neither is `try_..` nor returns a [`Fault`] ends the program where memory is refused, as Rust's collections do.
///
/// A tree goes from thread to thread, and one thread at a time uses it: it is `Send`, and not `Sync`. A `Mutex` shares it, with the rows:
/// [`serve_by`] and [`catch_up_by`] then lock it for one message at a time.
///
/// ```compile_fail,E0277
/// let tree = merkle_search_tree::sync::SyncTree::default();
/// std::thread::scope(|scope| {
///     scope.spawn(|| tree.len());
/// });
/// ```
pub struct SyncTree {
    side: sys::Side,
    settings: Settings,
    /// How many catch-ups began.
    pub(crate) begun: u64,
}

impl Default for SyncTree {
    /// A tree without keys, under the zero key of SipHash, with level base 16 and page format 1.
    fn default() -> Self {
        Self::with_settings(&SipHasher::default(), LEVEL_BASE, PageFormat::V1)
    }
}

impl SyncTree {
    /// A tree without keys, with these settings. Peers have all three in common, as [replicas](crate::replica::Replica::with_settings) do, and
    /// refuse others. If others choose keys, take a hasher under a secret key.
    pub fn with_settings(hasher: &SipHasher, level_base: NonZeroU8, page_format: PageFormat) -> Self {
        granted(Self::try_with_settings(hasher, level_base, page_format))
    }

    /// The same; refused where memory is.
    pub fn try_with_settings(
        hasher: &SipHasher,
        level_base: NonZeroU8,
        page_format: PageFormat,
    ) -> Result<Self, OutOfMemory> {
        let settings = Settings { hasher: hasher.clone(), level_base, page_format };
        Ok(Self { side: settings.side()?, settings, begun: 0 })
    }

    /// Makes the tree that of these rows, by one scan of them. If it fails, the tree is as before: [`Failed::Rows`] if the scan does, and
    /// [`Failed::NotAscending`] if its keys don't ascend by their bytes. A catch-up that is under way ends.
    ///
    /// Call it at the start, and whenever the tree may not have what the rows are. For rows that are read otherwise, call [`SyncTree::set`]
    /// for each, on a new tree.
    pub fn load<R: Rows + ?Sized>(&mut self, rows: &mut R) -> Result<(), Failed<R::Error>> {
        let mut side = granted(self.settings.side());
        scan(Range::ALL, rows, |key, value| {
            granted(side.set(key, value));
            true
        })?;
        self.side = side;
        Ok(())
    }

    /// Sets the tree to the rows in a range as they are, by one scan of them, and takes out the keys there that have no row: after another program
    /// wrote or deleted some of them. If it fails, as [`SyncTree::load`] does, the tree has some of these rows as they are and the others as they
    /// were: call it again.
    pub fn rescan<R: Rows + ?Sized>(&mut self, rows: &mut R, range: Range<'_>) -> Result<(), Failed<R::Error>> {
        let mut gone: BTreeSet<Vec<u8>> = granted(keys_in(&mut self.side, range)).into_iter().collect();
        let side = &mut self.side;
        scan(range, rows, |key, value| {
            granted(side.set(key, value));
            gone.remove(key);
            true
        })?;
        for key in gone {
            self.remove(key);
        }
        Ok(())
    }

    /// The keys at which the tree isn't that of the rows, in their order; none if it is in step. They are those of rows that the tree lacks or has
    /// with another digest, and those of the tree that have no row: set or remove each, or [`SyncTree::load`] the tree anew.
    ///
    /// It makes another tree by one scan, and compares root hashes. Only if these differ does it go over the keys of both. It fails as
    /// [`SyncTree::load`] does.
    pub fn verify<R: Rows + ?Sized>(&mut self, rows: &mut R) -> Result<Vec<Vec<u8>>, Failed<R::Error>> {
        let Settings { hasher, level_base, page_format } = &self.settings;
        let mut fresh = Self::with_settings(hasher, *level_base, *page_format);
        fresh.load(rows)?;
        if fresh.root_hash() == self.root_hash() {
            return Ok(Vec::new());
        }
        let mut keys = granted(keys_in(&mut fresh.side, Range::ALL));
        keys.extend(granted(keys_in(&mut self.side, Range::ALL)));
        keys.sort_unstable();
        keys.dedup();
        keys.retain(|key| fresh.digest(key) != self.digest(key));
        Ok(keys)
    }

    /// Sets a key to the digest of a value, which isn't kept: after each commit, to the value that the row now has.
    pub fn set(&mut self, key: impl AsRef<[u8]>, value: impl AsRef<[u8]>) {
        granted(self.try_set(key, value));
    }

    /// The same; refused where memory is, and then the tree is as before.
    pub fn try_set(&mut self, key: impl AsRef<[u8]>, value: impl AsRef<[u8]>) -> Result<(), OutOfMemory> {
        self.side.set(key.as_ref(), value.as_ref())
    }

    /// Takes a key out, and says whether it was there. A peer that has the row brings it back.
    pub fn remove(&mut self, key: impl AsRef<[u8]>) -> bool {
        match self.side.remove(key.as_ref()) {
            Ok(()) => true,
            Err(Refused::Absent) => false,
            Err(_) => granted(Err(OutOfMemory)),
        }
    }

    /// The digest of the value at a key, if the key is there.
    pub fn digest(&self, key: impl AsRef<[u8]>) -> Option<ValueDigest> {
        match self.side.find(key.as_ref()) {
            Ok(digest) => Some(ValueDigest::new(Digest::new(digest))),
            Err(Refused::Absent) => None,
            Err(_) => granted(Err(OutOfMemory)),
        }
    }

    /// Whether a key is there.
    pub fn contains_key(&self, key: impl AsRef<[u8]>) -> bool {
        self.digest(key).is_some()
    }

    /// How many keys there are. It counts them.
    pub fn len(&self) -> usize {
        granted(self.side.len())
    }

    /// Whether there is none. It counts them.
    pub fn is_empty(&self) -> bool {
        self.len() == 0
    }

    /// The root hash: that of a [`Replica`](crate::replica::Replica) with the same rows and settings. It hashes the pages that changed, and
    /// takes no memory.
    pub fn root_hash(&mut self) -> RootHash {
        RootHash::new(PageDigest::new(self.side.root_hash()))
    }

    /// Begins a catch-up, in place of one that is under way, and returns its first question, by which the peer sees the settings. It counts the
    /// keys.
    pub fn ask(&mut self) -> Result<Vec<u8>, Fault> {
        let question = self.side.ask()?;
        self.begun += 1;
        Ok(self.settings.told(question)?)
    }

    /// Takes the reply to the question that was asked last: any bytes may be given. The tree stays as it is, also at the end: set it to what
    /// the rows are once they are joined. After an error the catch-up is over. [`Fault::Malformed`] comes too if the peer's rows changed in
    /// between, so that a key came twice: then begin again.
    pub fn take(&mut self, reply: &[u8]) -> Result<Next, Fault> {
        self.side.take(reply).map_err(|refused| Fault::of(refused, 0))
    }

    /// The reply to a question of a peer that catches up, or what it needs of the rows. Any bytes may be given. [`Fault::Malformed`] if they are
    /// no question, and [`Fault::OtherSettings`] if the peer has other settings: send it [`REFUSAL`](crate::replica::REFUSAL) then. Nothing is
    /// kept between questions.
    pub fn answer(&mut self, question: &[u8]) -> Result<Answer, Fault> {
        self.side.answer(question).map(Answer::of).map_err(|refused| Fault::of(refused, 0))
    }

    /// The reply to a question for which [`SyncTree::answer`] needed rows, by those that were found. It is of all that was asked for, or of the
    /// first of it, and the peer then asks for the rest. [`Fault::OtherRows`] if they were found for another question.
    pub fn answer_with(&mut self, question: &[u8], found: Found) -> Result<Vec<u8>, Fault> {
        let (rows, is_all, most) = found.into_list();
        self.side.answer_with(question, &rows, is_all, most).map_err(|refused| Fault::of(refused, 0))
    }
}

impl<K: AsRef<[u8]>, V: AsRef<[u8]>> Extend<(K, V)> for SyncTree {
    fn extend<T: IntoIterator<Item = (K, V)>>(&mut self, rows: T) {
        rows.into_iter().for_each(|(key, value)| self.set(key, value));
    }
}

impl<K: AsRef<[u8]>, V: AsRef<[u8]>> FromIterator<(K, V)> for SyncTree {
    fn from_iter<T: IntoIterator<Item = (K, V)>>(rows: T) -> Self {
        let mut tree = Self::default();
        tree.extend(rows);
        tree
    }
}

impl fmt::Debug for SyncTree {
    fn fmt(&self, f: &mut fmt::Formatter<'_>) -> fmt::Result {
        f.debug_struct("SyncTree").finish_non_exhaustive()
    }
}

/// Why a catch-up, the answers to a peer or a scan ended early.
#[derive(Debug)]
pub enum Failed<E> {
    /// The connection, the peer or memory. The errors are those of [`Replica::catch_up`](crate::replica::Replica::catch_up) and
    /// [`Replica::serve`](crate::replica::Replica::serve): that of the connection as it is, and a [`Fault`] as `InvalidData` mostly.
    Io(io::Error),
    /// The rows: what a call of [`Rows`] returned.
    Rows(E),
    /// [`Rows::rows_in`] gave a row that isn't in the range, or rows that don't ascend by the bytes of their keys.
    NotAscending(OutOfOrder),
    /// [`Registers`](crate::register::Registers) gave a register that no `mst` takes. Mend the row, and call
    /// [`RegisterTree::load`](crate::register::RegisterTree::load): if it is one that a join returned, the others are joined already. (One that a
    /// peer sent is in [`Failed::Io`].)
    Untaken(Untaken),
}

/// A row that a scan gave at the wrong place, as of a column of the type `text` in PostgreSQL, which has another order without `COLLATE "C"`.
#[derive(Debug, Clone, PartialEq, Eq)]
pub struct OutOfOrder {
    /// The key of the row.
    pub key: Vec<u8>,
    /// The key right before it, which isn't below it; or `None` if the key isn't in the range that was asked for.
    pub before: Option<Vec<u8>>,
}

impl OutOfOrder {
    /// Checks a key of a scan of a range, after another one if there is one.
    fn check(range: Range<'_>, before: Option<&[u8]>, key: &[u8]) -> Result<(), Self> {
        match before.filter(|before| key <= *before) {
            None if range.contains(key) => Ok(()),
            before => Err(Self { key: key.to_vec(), before: before.map(<[u8]>::to_vec) }),
        }
    }
}

impl fmt::Display for OutOfOrder {
    fn fmt(&self, f: &mut fmt::Formatter<'_>) -> fmt::Result {
        let key = Shown(&self.key);
        let order = "a text in PostgreSQL needs COLLATE \"C\"";
        match self.before.as_deref() {
            Some(before) if before == self.key => {
                let rule = "a key has one row, and where a scan goes on it begins after the last key";
                write!(f, "a scan gave the key {key} twice: {rule}")
            }
            Some(before) => {
                write!(f, "a scan gave {key} after {}, which don't ascend by their bytes: {order}", Shown(before))
            }
            None => write!(f, "a scan gave {key}, which isn't in the range by the order of bytes: {order}"),
        }
    }
}

impl Error for OutOfOrder {}

/// A key in an error.
struct Shown<'a>(&'a [u8]);

impl fmt::Display for Shown<'_> {
    fn fmt(&self, f: &mut fmt::Formatter<'_>) -> fmt::Result {
        const MOST: usize = 100;
        let (shown, rest) = self.0.split_at(self.0.len().min(MOST));
        write!(f, "\"{}\"{}", shown.escape_ascii(), if rest.is_empty() { "" } else { ".." })
    }
}

impl<E> From<io::Error> for Failed<E> {
    fn from(error: io::Error) -> Self {
        Self::Io(error)
    }
}

impl<E> From<Fault> for Failed<E> {
    fn from(fault: Fault) -> Self {
        Self::Io(fault.into())
    }
}

impl<E> From<OutOfOrder> for Failed<E> {
    fn from(out: OutOfOrder) -> Self {
        Self::NotAscending(out)
    }
}

impl<E> From<Untaken> for Failed<E> {
    fn from(untaken: Untaken) -> Self {
        Self::Untaken(untaken)
    }
}

impl<E: Into<Box<dyn Error + Send + Sync>>> From<Failed<E>> for io::Error {
    fn from(failed: Failed<E>) -> Self {
        match failed {
            Failed::Io(error) => error,
            Failed::Rows(error) => Self::other(error),
            Failed::NotAscending(out) => Self::other(out),
            Failed::Untaken(untaken) => untaken.into(),
        }
    }
}

impl<E: fmt::Display> fmt::Display for Failed<E> {
    fn fmt(&self, f: &mut fmt::Formatter<'_>) -> fmt::Result {
        match self {
            Self::Io(error) => error.fmt(f),
            Self::Rows(error) => error.fmt(f),
            Self::NotAscending(out) => out.fmt(f),
            Self::Untaken(untaken) => untaken.fmt(f),
        }
    }
}

impl<E: Error + 'static> Error for Failed<E> {
    fn source(&self) -> Option<&(dyn Error + 'static)> {
        match self {
            Self::Io(error) => error.source(),
            Self::Rows(error) => error.source(),
            Self::NotAscending(_) | Self::Untaken(_) => None,
        }
    }
}

/// The reply to a question of a peer, of the rows that it needs: [`SyncTree::answer`] with the look-ups.
pub fn answer<R: Rows + ?Sized>(
    tree: &mut SyncTree,
    rows: &mut R,
    question: &[u8],
) -> Result<Vec<u8>, Failed<R::Error>> {
    reply_of(tree.answer(question)?, rows, |found| tree.answer_with(question, found))
}

/// The reply that an answer comes to, of the rows that it needs.
pub(crate) fn reply_of<R: Rows + ?Sized>(
    answer: Answer,
    rows: &mut R,
    reply_with: impl FnOnce(Found) -> Result<Vec<u8>, Fault>,
) -> Result<Vec<u8>, Failed<R::Error>> {
    let found = match answer {
        Answer::Reply(reply) => return Ok(reply),
        Answer::NeedsKeys(keys) => look_up_keys(&keys, rows)?,
        Answer::NeedsRanges(ranges) => look_up_ranges(&ranges, rows)?,
    };
    Ok(reply_with(found)?)
}

/// Looks up the rows at keys, until they are enough.
fn look_up_keys<R: Rows + ?Sized>(keys: &Keys, rows: &mut R) -> Result<Found, Failed<R::Error>> {
    let mut found = keys.found();
    for key in keys.iter() {
        let value = rows.value(key).map_err(Failed::Rows)?;
        if !found.value(key, value.as_deref()) {
            break;
        }
    }
    Ok(found)
}

/// Looks up the rows in ranges, until they are enough.
fn look_up_ranges<R: Rows + ?Sized>(ranges: &Ranges, rows: &mut R) -> Result<Found, Failed<R::Error>> {
    let mut found = ranges.found();
    for range in ranges.iter() {
        if !scan(range, rows, |key, value| found.row(range, key, value))? {
            break;
        }
    }
    Ok(found)
}

/// Gives the rows in a range one by one until no more are wanted, and says whether more are. [`Failed::NotAscending`] if one isn't in the range, or not
/// above the one before.
fn scan<R: Rows + ?Sized>(
    range: Range<'_>,
    rows: &mut R,
    mut give: impl FnMut(&[u8], &[u8]) -> bool,
) -> Result<bool, Failed<R::Error>> {
    let (mut goes_on, mut checked, mut before) = (true, Ok(()), None::<Vec<u8>>);
    let mut give_in_order = |key: &[u8], value: &[u8]| {
        if goes_on {
            checked = OutOfOrder::check(range, before.as_deref(), key);
            goes_on = checked.is_ok() && give(key, value);
            let before = before.get_or_insert_with(Vec::new);
            before.clear();
            before.extend_from_slice(key);
        }
        goes_on
    };
    rows.rows_in(range, &mut give_in_order).map_err(Failed::Rows)?;
    checked?;
    Ok(goes_on)
}

/// Takes the reply to the question that was asked last by [`SyncTree::ask`] or by this call. At the end it joins the rows that came, and sets the
/// tree to them.
pub fn take<R: Rows + ?Sized>(tree: &mut SyncTree, rows: &mut R, reply: &[u8]) -> Result<Step, Failed<R::Error>> {
    take_within(usize::MAX, tree, rows, reply)
}

/// The same if no more rows than this came; else none is joined.
pub(crate) fn take_within<R: Rows + ?Sized>(
    most: usize,
    tree: &mut SyncTree,
    rows: &mut R,
    reply: &[u8],
) -> Result<Step, Failed<R::Error>> {
    match tree.take(reply)? {
        Next::Ask(question) => Ok(Step::Ask(question)),
        Next::Came(came) if came.len() > most => Err(unexpected(TOO_MANY_ROWS).into()),
        Next::Came(came) => {
            if !came.is_empty() {
                tree.extend(rows.join(&came).map_err(Failed::Rows)?);
            }
            Ok(Step::Joined(came.len()))
        }
    }
}

/// Brings the rows of a peer that serves over a connection, and returns how many came; those that [`Rows::join`] leaves as they were count
/// too. At the end the peer is told so: then it may catch up, and this side serve, over the same connection.
///
/// [`Failed::Io`] with an error of the connection as it is; with `UnexpectedEof` if the peer ends before; and with `InvalidData` if it sends
/// what is no reply, or more than the limits. [`Failed::Rows`] if the rows can't be joined. Rows and tree are then as before, except if it is
/// the end that can't be told. If the peer's rows change meanwhile, a catch-up with an honest peer may end as `InvalidData`, too: then begin
/// again, over a connection of its own.
pub fn catch_up<R: Rows + ?Sized>(
    tree: &mut SyncTree,
    rows: &mut R,
    connection: &mut (impl Read + Write),
) -> Result<usize, Failed<R::Error>> {
    catch_up_within(Limits::default(), tree, rows, connection)
}

/// The same with other limits.
pub fn catch_up_within<R: Rows + ?Sized>(
    limits: Limits,
    tree: &mut SyncTree,
    rows: &mut R,
    connection: &mut (impl Read + Write),
) -> Result<usize, Failed<R::Error>> {
    let question = tree.ask()?;
    asking(limits, connection, question, |reply| take_within(limits.session_rows, tree, rows, reply))
}

/// Answers a peer that catches up, until it says that it is done or ends, and returns how many questions it was answered. A reply has some 16 MiB
/// of rows at most, or one row that has more.
///
/// It gets no receipt, and returns the same if the peer joined the rows or hung up before it did.
///
/// [`Failed::Io`] with an error of the connection as it is; with `UnexpectedEof` if the peer ends within a message; and with `InvalidData` if
/// it sends what is no question or has other settings, or more than the limits: the peer is sent the refusal first, if it is still there.
/// [`Failed::Rows`] or [`Failed::NotAscending`] if rows can't be looked up: the peer gets no reply, and sees that the connection ends.
pub fn serve<R: Rows + ?Sized>(
    tree: &mut SyncTree,
    rows: &mut R,
    connection: &mut (impl Read + Write),
) -> Result<usize, Failed<R::Error>> {
    serve_within(Limits::default(), tree, rows, connection)
}

/// The same with other limits.
pub fn serve_within<R: Rows + ?Sized>(
    limits: Limits,
    tree: &mut SyncTree,
    rows: &mut R,
    connection: &mut (impl Read + Write),
) -> Result<usize, Failed<R::Error>> {
    answering(limits, connection, |question| answer(tree, rows, question), is_of_the_peer)
}

/// Whether the peer is to be told that it is refused.
pub(crate) fn is_of_the_peer<E>(failed: &Failed<E>) -> bool {
    matches!(failed, Failed::Io(error) if error.kind() == ErrorKind::InvalidData)
}

/// Brings the rows of a peer into rows that others use meanwhile, and returns how many came: [`catch_up_within`] with a tree and rows behind a
/// `Mutex`, which `lock` locks for each question and for each reply, and not while the peer is waited for. The rows are joined under the last of
/// these locks, and the tree is set under it too.
///
/// A tree is in one catch-up at a time. If another begins, this one ends with [`Fault::NotAsking`]: hold another lock round each
/// catch-up, and none round what answers.
///
/// ```
/// use merkle_search_tree::{
///     replica::Limits,
///     sync::{catch_up_by, serve_by, SyncTree},
/// };
/// use std::{collections::BTreeMap, os::unix::net::UnixStream, sync::Mutex, thread};
///
/// let [office, laptop] = ["kiwi", "melon"].map(|key| {
///     let rows = BTreeMap::from([(key.as_bytes().to_vec(), b"1130 one".to_vec())]);
///     Mutex::new((SyncTree::from_iter(&rows), rows))
/// });
/// thread::scope(|scope| {
///     for (asks, answers) in [(&office, &laptop), (&laptop, &office)] {
///         let (mut ours, mut theirs) = UnixStream::pair().unwrap();
///         scope.spawn(move || serve_by(Limits::default(), &mut theirs, || answers.lock().unwrap()));
///         scope.spawn(move || catch_up_by(Limits::default(), &mut ours, || asks.lock().unwrap()).unwrap());
///     }
/// });
/// assert_eq!(office.lock().unwrap().1, laptop.lock().unwrap().1);
/// ```
pub fn catch_up_by<R: Rows, L: DerefMut<Target = (SyncTree, R)>>(
    limits: Limits,
    connection: &mut (impl Read + Write),
    mut lock: impl FnMut() -> L,
) -> Result<usize, Failed<R::Error>> {
    let (question, mine) = {
        let tree = &mut lock().0;
        (tree.ask()?, tree.begun)
    };
    asking(limits, connection, question, |reply| {
        let (tree, rows) = &mut *lock();
        expect_same(mine, tree.begun)?;
        take_within(limits.session_rows, tree, rows, reply)
    })
}

/// Serves a peer by a tree and rows behind a `Mutex`, which `lock` locks for one question at a time: [`serve_within`] in a thread of its own.
pub fn serve_by<R: Rows, L: DerefMut<Target = (SyncTree, R)>>(
    limits: Limits,
    connection: &mut (impl Read + Write),
    mut lock: impl FnMut() -> L,
) -> Result<usize, Failed<R::Error>> {
    let answer_locked = |question: &[u8]| {
        let (tree, rows) = &mut *lock();
        answer(tree, rows, question)
    };
    answering(limits, connection, answer_locked, is_of_the_peer)
}
