//! Peers of the store `mst`: rows of registers that are kept elsewhere, as in a database, in step with `mst serve` and `mst pull`.
//!
//! A [`Register`] is a value of such a store: when it was written, by whom, and what, or that the key was removed. Of two the later stays. The
//! trait [`Registers`] says where the rows are; a `BTreeMap<String, Register>` is such rows. A [`RegisterTree`] has their digests, in a tree as
//! `mst` has one. All peers have one hash key, which `mst hash-key FILE` prints.
//!
//! Over a connection that carries bytes in order, such as the pipes of `ssh host mst serve --both FILE`, call [`catch_up`] and then [`serve`]. With
//! `mst pull` at the other end call [`serve`], and after `mst pull --both` also [`catch_up`]. Two such trees may be peers, too:
//!
//! ```
//! use merkle_search_tree::register::{catch_up, hasher_of, serve, Register, RegisterTree};
//! use std::{collections::BTreeMap, io, os::unix::net::UnixStream, thread};
//!
//! # fn main() -> io::Result<()> {
//! let hasher = hasher_of("000102030405060708090a0b0c0d0e0f").unwrap();
//! let first = Register { time: 1764400000000, writer: "alice".into(), value: Some("2".into()) };
//! let removed = Register { time: 1764400060000, writer: "bob".into(), value: None };
//! let mut office = BTreeMap::from([("bee".to_owned(), first.clone()), ("cow".to_owned(), first)]);
//! let mut laptop = BTreeMap::from([("bee".to_owned(), removed.clone())]);
//! let (mut tree, mut peers_tree) = (RegisterTree::new(&hasher), RegisterTree::new(&hasher));
//! tree.load(&mut office).unwrap();
//! peers_tree.load(&mut laptop).unwrap();
//!
//! let (mut ours, mut theirs) = UnixStream::pair()?;
//! let peer = thread::spawn(move || -> io::Result<_> {
//!     serve(&mut peers_tree, &mut laptop, &mut theirs)?;
//!     catch_up(&mut peers_tree, &mut laptop, &mut theirs)?;
//!     Ok(laptop)
//! });
//! assert_eq!(catch_up(&mut tree, &mut office, &mut ours)?, 1);
//! serve(&mut tree, &mut office, &mut ours)?;
//! assert_eq!(office["bee"], removed);
//! assert_eq!(office, peer.join().unwrap()?);
//! # Ok(())
//! # }
//! ```
//!
//! Write a row by [`Register::over`], [`Register::check`] and commit it, and then [`RegisterTree::set`] its key. What follows if a step fails is as of a
//! [`SyncTree`](crate::sync#if-a-step-fails). [`take`] and [`answer`] do one step, for any other transport, and the calls of a [`RegisterTree`] read and
//! write neither a connection nor a row.
//!
//! The messages are those of docs/WIRE.md. A [`SyncTree`] reads and writes them with values that are byte strings. A register is hashed by other
//! bytes than it has in a message, so the tree has byte strings of those that are hashed, and each reply is written anew with the other form of
//! its values.
use crate::{
    builder::{PageFormat, LEVEL_BASE},
    bytes::HashBytes,
    digest::{siphash::SipHasher, RootHash, ValueDigest},
    replica::{answering, asking, expect_same, Fault, Limits, Step, REFUSAL},
    sync::{self, is_of_the_peer, Answer, Came, Failed, Found, Next, Row, Rows, SyncTree},
    Malformed,
};
use std::{
    cmp::Ordering,
    collections::BTreeMap,
    convert::Infallible,
    error::Error,
    fmt,
    io::{self, ErrorKind, Read, Write},
    ops::{Bound, DerefMut, RangeBounds},
    str,
    time::{SystemTime, UNIX_EPOCH},
};

mod replies;
use replies::{encode_count, Reader};

/// How many bytes a key, a writer's name and a value have at most, each: `mst` takes nothing from a peer that sends a longer one.
pub const MOST_TEXT: usize = 1 << 20;

/// The last time that a store can hold.
const LAST: u64 = (1 << 63) - 1;

/// How far ahead of the clock a time may be, in milliseconds: a day.
const AHEAD: u64 = 86_400_000;

/// The front of a question that asks for a delta.
const BY_DELTA: [u8; 2] = [1, 6];

/// What was written last under a key of a store.
///
/// Of two registers that of the greater time is the later; of one time, that of the greater writer; of one writer, the greater value. A removal is
/// less than any value, and a value in UTF-8 less than any other. The later is the greater one here.
#[derive(Debug, Clone, PartialEq, Eq, Hash)]
pub struct Register {
    /// When it was written, in milliseconds since 1970.
    pub time: u64,
    /// The name of the copy that wrote it.
    pub writer: String,
    /// The value, or `None` if the key was removed.
    pub value: Option<Vec<u8>>,
}

impl Register {
    /// A write, or with `None` a removal, over the register that the key has: at this time, or at one more than that register's, whichever is
    /// later. So it wins over what this copy has, unless that has the last time that there is. [`now`] is the time to give.
    pub fn over(held: Option<&Self>, now: u64, writer: impl Into<String>, value: Option<Vec<u8>>) -> Self {
        let time = held.map_or(now, |held| now.max(held.time.saturating_add(1)));
        Self { time, writer: writer.into(), value }
    }

    /// What is compared before the value, as by a column in SQL: 0 of a removal, 1 of a value in UTF-8, and 2 of another one.
    pub fn kind(&self) -> u8 {
        match &self.value {
            None => 0,
            Some(value) if str::from_utf8(value).is_ok() => 1,
            Some(_) => 2,
        }
    }

    /// The bytes that it has in a message.
    pub fn to_bytes(&self) -> Vec<u8> {
        let mut bytes = Vec::new();
        self.encode(&mut bytes);
        bytes
    }

    fn encode(&self, bytes: &mut Vec<u8>) {
        encode_count(self.time, bytes);
        encode_count(self.writer.len() as u64, bytes);
        bytes.extend_from_slice(self.writer.as_bytes());
        bytes.push(self.kind());
        if let Some(value) = &self.value {
            encode_count(value.len() as u64, bytes);
            bytes.extend_from_slice(value);
        }
    }

    /// The register that has these bytes in a message.
    pub fn from_bytes(bytes: &[u8]) -> Result<Self, Malformed> {
        let mut reader = Reader::new(bytes);
        let register = Self::decode(&mut reader).ok_or(Malformed)?;
        reader.is_read().then_some(register).ok_or(Malformed)
    }

    fn decode(reader: &mut Reader<'_>) -> Option<Self> {
        let time = reader.count()?;
        let writer = str::from_utf8(reader.string()?).ok()?.to_owned();
        let mark = reader.byte()?;
        let value = if mark == 0 { None } else { Some(reader.string()?.to_vec()) };
        let register = Self { time, writer, value };
        // A value has one form.
        (register.kind() == mark).then_some(register)
    }

    /// An error if `mst` doesn't take it at this key: if the key, the writer or the value has more than [`MOST_TEXT`] bytes, or the time is 2^63 or
    /// later. Call it before a write is committed: after the commit [`RegisterTree::set`] does.
    pub fn check(&self, key: &str) -> Result<(), Untaken> {
        self.check_until(LAST, key)
    }

    /// The same for another latest time.
    fn check_until(&self, latest: u64, key: &str) -> Result<(), Untaken> {
        let value_len = self.value.as_ref().map_or(0, Vec::len);
        let parts = [(Part::Key, key.len()), (Part::Writer, self.writer.len()), (Part::Value, value_len)];
        if let Some((part, _)) = parts.into_iter().find(|(_, len)| *len > MOST_TEXT) {
            return Err(Untaken::TooLong { key: key.to_owned(), part });
        }
        if self.time > latest.min(LAST) {
            return Err(Untaken::TooLate { key: key.to_owned(), time: self.time });
        }
        Ok(())
    }

    /// The bytes of which its digest is.
    pub fn hashed_bytes(&self) -> Vec<u8> {
        let mut bytes = self.time.to_le_bytes().to_vec();
        bytes.extend_from_slice(&(self.writer.len() as u64).to_le_bytes());
        bytes.extend_from_slice(self.writer.as_bytes());
        bytes.push(self.kind());
        bytes.extend_from_slice(self.value.as_deref().unwrap_or_default());
        bytes
    }

    /// The register of bytes that [`Register::hashed_bytes`] returned.
    fn of_hashed_bytes(bytes: &[u8]) -> Option<Self> {
        let (time, rest) = bytes.split_first_chunk()?;
        let (len, rest) = rest.split_first_chunk()?;
        let (writer, rest) = rest.split_at_checked(usize::try_from(u64::from_le_bytes(*len)).ok()?)?;
        let (mark, value) = rest.split_first()?;
        Some(Self {
            time: u64::from_le_bytes(*time),
            writer: str::from_utf8(writer).ok()?.to_owned(),
            value: (*mark != 0).then(|| value.to_vec()),
        })
    }

    /// Its digest.
    pub fn digest(&self, hasher: &SipHasher) -> ValueDigest {
        let mut tree = tree_of(hasher);
        tree.set("", self.hashed_bytes());
        tree.digest("").expect("the key was set")
    }

    fn rank(&self) -> (u64, &str, u8, Option<&[u8]>) {
        (self.time, &self.writer, self.kind(), self.value.as_deref())
    }
}

impl PartialOrd for Register {
    fn partial_cmp(&self, other: &Self) -> Option<Ordering> {
        Some(self.cmp(other))
    }
}

impl Ord for Register {
    fn cmp(&self, other: &Self) -> Ordering {
        self.rank().cmp(&other.rank())
    }
}

impl HashBytes for Register {
    fn with_bytes<R>(&self, with: impl FnOnce(&[u8]) -> R) -> R {
        with(&self.hashed_bytes())
    }
}

/// The time of the clock, in milliseconds since 1970; 0 before that.
pub fn now() -> u64 {
    let since = SystemTime::now().duration_since(UNIX_EPOCH).unwrap_or_default();
    u64::try_from(since.as_millis()).unwrap_or(u64::MAX)
}

/// The latest time that an entry of a peer may have, by default: a day ahead of the clock.
pub fn latest() -> u64 {
    now().saturating_add(AHEAD)
}

/// The hasher under a hash key as `mst hash-key` prints it, 32 hexadecimal digits. White space around these is skipped.
pub fn hasher_of(hash_key: &str) -> Option<SipHasher> {
    let digits = hash_key.trim().as_bytes();
    let mut key = [0; 16];
    if digits.len() != 32 {
        return None;
    }
    for (byte, pair) in key.iter_mut().zip(digits.chunks(2)) {
        let [high, low] = [pair[0], pair[1]].map(|digit| char::from(digit).to_digit(16));
        *byte = (high? * 16 + low?) as u8;
    }
    Some(SipHasher::new(&key))
}

/// A row: its key and its register.
pub type Entry = (String, Register);

/// What rows are given to, one by one; it says whether more are wanted.
pub type Give<'a> = dyn FnMut(&str, &Register) -> bool + 'a;

/// Rows of registers that are kept elsewhere, such as in a table of a database: what [`Rows`] is, with texts as keys and registers as values.
///
/// [`catch_up`] calls `join` alone, at its end. [`serve`] calls the other two, whenever a reply needs rows.
pub trait Registers {
    /// Why a call failed.
    type Error;

    /// The register at a key, if the key was ever written.
    fn register(&mut self, key: &str) -> Result<Option<Register>, Self::Error>;

    /// Gives the rows in a range, in the order of the bytes of their keys, until `give` says that no more are wanted.
    fn registers_in(&mut self, range: Range<'_>, give: &mut Give<'_>) -> Result<(), Self::Error>;

    /// Joins rows that came, whose keys ascend, with those that are there, in one transaction: all of them, or none if it fails. Of a register
    /// that came and one that is there the later stays. It returns the rows that it changed, as they now are.
    fn join(&mut self, came: Vec<Entry>) -> Result<Vec<Entry>, Self::Error>;
}

impl Registers for BTreeMap<String, Register> {
    type Error = Infallible;

    fn register(&mut self, key: &str) -> Result<Option<Register>, Infallible> {
        Ok(self.get(key).cloned())
    }

    fn registers_in(&mut self, range: Range<'_>, give: &mut Give<'_>) -> Result<(), Infallible> {
        self.range::<str, _>(range).all(|(key, register)| give(key, register));
        Ok(())
    }

    fn join(&mut self, came: Vec<Entry>) -> Result<Vec<Entry>, Infallible> {
        let later = |(key, register): &Entry| self.get(key).is_none_or(|held| held < register);
        let changed = Vec::from_iter(came.into_iter().filter(later));
        self.extend(changed.iter().cloned());
        Ok(changed)
    }
}

/// The keys from `first` on, or those of them below `end`. A map takes it: `map.range::<str, _>(range)`.
#[derive(Debug, Clone, Copy, PartialEq, Eq)]
pub struct Range<'a> {
    /// The least key that is in the range.
    pub first: &'a str,
    /// The key below which the others are, if there is one; it is above `first`.
    pub end: Option<&'a str>,
}

impl Range<'_> {
    /// The range of all keys.
    pub const ALL: Self = Self { first: "", end: None };
}

impl RangeBounds<str> for Range<'_> {
    fn start_bound(&self) -> Bound<&str> {
        Bound::Included(self.first)
    }

    fn end_bound(&self) -> Bound<&str> {
        self.end.map_or(Bound::Unbounded, Bound::Excluded)
    }
}

/// Why an entry isn't taken, and nothing else that comes with it either. As an [`io::Error`] it is of the kind `InvalidData`.
#[derive(Debug, Clone, PartialEq, Eq)]
pub enum Untaken {
    /// A part of the entry at this key has more than [`MOST_TEXT`] bytes.
    TooLong {
        /// The key.
        key: String,
        /// Which part it is.
        part: Part,
    },
    /// The time of the register at this key is later than is taken.
    TooLate {
        /// The key.
        key: String,
        /// The time.
        time: u64,
    },
}

/// A part of an entry that has a greatest length.
#[derive(Debug, Clone, Copy, PartialEq, Eq)]
pub enum Part {
    /// The key.
    Key,
    /// The name of the writer.
    Writer,
    /// The value.
    Value,
}

impl fmt::Display for Part {
    fn fmt(&self, f: &mut fmt::Formatter<'_>) -> fmt::Result {
        f.write_str(match self {
            Self::Key => "key",
            Self::Writer => "writer",
            Self::Value => "value",
        })
    }
}

impl fmt::Display for Untaken {
    fn fmt(&self, f: &mut fmt::Formatter<'_>) -> fmt::Result {
        const SHOWN: usize = 40;
        let (Self::TooLong { key, .. } | Self::TooLate { key, .. }) = self;
        let key: String = key.chars().take(SHOWN).collect();
        match self {
            Self::TooLong { part, .. } => {
                write!(f, "the entry at {key:?} isn't taken: its {part} has more than {MOST_TEXT} bytes")
            }
            Self::TooLate { time, .. } => write!(f, "the entry at {key:?} isn't taken: its time, {time}, is too late"),
        }
    }
}

impl Error for Untaken {}

impl From<Untaken> for io::Error {
    fn from(untaken: Untaken) -> Self {
        Self::new(ErrorKind::InvalidData, untaken)
    }
}

/// A connection of two pipes, such as those of a child process: what is read comes from the first, and what is written goes to the second.
#[derive(Debug)]
pub struct Pipes<R, W>(pub R, pub W);

impl<R: Read, W> Read for Pipes<R, W> {
    fn read(&mut self, out: &mut [u8]) -> io::Result<usize> {
        self.0.read(out)
    }
}

impl<R, W: Write> Write for Pipes<R, W> {
    fn write(&mut self, bytes: &[u8]) -> io::Result<usize> {
        self.1.write(bytes)
    }

    fn flush(&mut self) -> io::Result<()> {
        self.1.flush()
    }
}

/// The digests of rows of registers that are kept elsewhere, which asks peers what they have and answers them: a [`SyncTree`] with the settings of
/// `mst`. It is `Send`, and not `Sync`: a `Mutex` shares it, with the rows, and [`serve_by`] and [`catch_up_by`] lock it for one message at a time.
pub struct RegisterTree {
    tree: SyncTree,
}

/// A tree without keys, with the settings of a store.
fn tree_of(hasher: &SipHasher) -> SyncTree {
    SyncTree::with_settings(hasher, LEVEL_BASE, PageFormat::V2)
}

impl RegisterTree {
    /// A tree without keys. Peers have one hash key, and refuse others, also of a tree without keys.
    pub fn new(hasher: &SipHasher) -> Self {
        Self { tree: tree_of(hasher) }
    }

    /// Makes the tree that of these rows, by one scan of them: at the start, and whenever it may not have what the rows are. If it fails, the tree
    /// is as before: as [`SyncTree::load`] does, and with [`Failed::Untaken`] if a row is one that no `mst` takes. A catch-up that is under way ends.
    pub fn load<R: Registers + ?Sized>(&mut self, rows: &mut R) -> Result<(), Failed<R::Error>> {
        self.tree.load(&mut ByteRows { rows, latest: 0 }).map_err(failed_of)
    }

    /// Sets the tree to the rows in a range as they are, by one scan of them, and takes out the keys there that have no row: after another program
    /// wrote or deleted some of them. If it fails, as [`RegisterTree::load`] does, the tree has some of these rows as they are and the others as they
    /// were: call it again.
    pub fn rescan<R: Registers + ?Sized>(&mut self, rows: &mut R, range: Range<'_>) -> Result<(), Failed<R::Error>> {
        let range = sync::Range { first: range.first.as_bytes(), end: range.end.map(str::as_bytes) };
        self.tree.rescan(&mut ByteRows { rows, latest: 0 }, range).map_err(failed_of)
    }

    /// The keys at which the tree isn't that of the rows, in their order; none if it is in step, as [`SyncTree::verify`]: set or remove each, or
    /// [`RegisterTree::load`] the tree anew. It makes another tree to compare, and fails as that does.
    pub fn verify<R: Registers + ?Sized>(&mut self, rows: &mut R) -> Result<Vec<String>, Failed<R::Error>> {
        let keys = self.tree.verify(&mut ByteRows { rows, latest: 0 }).map_err(failed_of)?;
        Ok(keys.into_iter().map(|key| String::from_utf8(key).expect("each key was set as a text")).collect())
    }

    /// Sets a key to the digest of a register: after each commit, to the one that the row now has. An error if no `mst` takes it, which
    /// [`Register::check`] says before the commit; the tree is then as before.
    pub fn set(&mut self, key: &str, register: &Register) -> Result<(), Untaken> {
        self.tree.set(key, hashed_at(key, register)?);
        Ok(())
    }

    /// Takes a key out, as one whose removal is forgotten, and says whether it was there. A peer that has the row brings it back.
    pub fn remove(&mut self, key: &str) -> bool {
        self.tree.remove(key)
    }

    /// The digest of the register at a key, if the key is there.
    pub fn digest(&self, key: &str) -> Option<ValueDigest> {
        self.tree.digest(key)
    }

    /// How many keys there are, removed ones too. It counts them.
    pub fn len(&self) -> usize {
        self.tree.len()
    }

    /// Whether there is none. It counts them.
    pub fn is_empty(&self) -> bool {
        self.tree.is_empty()
    }

    /// The root hash: that of a store with these rows and this hash key. Displayed it is what `mst root` prints.
    pub fn root_hash(&mut self) -> RootHash {
        self.tree.root_hash()
    }

    /// Begins a catch-up, in place of one that is under way, and returns its first question. It counts the keys.
    pub fn ask(&mut self) -> Result<Vec<u8>, Fault> {
        self.tree.ask()
    }

    /// Takes the reply to the question that was asked last, as [`SyncTree::take`]: any bytes may be given. At the end [`entries_of`] what came is to be
    /// joined, and the tree set to it.
    pub fn take(&mut self, reply: &[u8]) -> Result<Next, Fault> {
        self.tree.take(&for_the_tree(reply))
    }

    /// The reply to a question of a peer, or what it needs of the rows, as [`SyncTree::answer`]: any bytes may be given. If the question asks for a
    /// delta, the reply is the [`REFUSAL`], after which `mst` asks without one.
    pub fn answer(&mut self, question: &[u8]) -> Result<Answer, Fault> {
        if question.starts_with(&BY_DELTA) {
            return Ok(Answer::Reply(REFUSAL.to_vec()));
        }
        match self.tree.answer(question)? {
            Answer::Reply(reply) => Ok(Answer::Reply(replies::with_registers(&reply)?)),
            needs => Ok(needs),
        }
    }

    /// The reply to a question for which [`RegisterTree::answer`] needed rows, by those that were found, as [`SyncTree::answer_with`]. The values that
    /// were found are [`Register::hashed_bytes`], and no row has a key that isn't in UTF-8.
    pub fn answer_with(&mut self, question: &[u8], found: Found) -> Result<Vec<u8>, Fault> {
        replies::with_registers(&self.tree.answer_with(question, found)?)
    }
}

/// A reply with byte strings in place of registers, or no bytes if it can't be rewritten: these are no reply either, so the tree ends the catch-up.
fn for_the_tree(reply: &[u8]) -> Vec<u8> {
    replies::with_byte_strings(reply).unwrap_or_default()
}

impl fmt::Debug for RegisterTree {
    fn fmt(&self, f: &mut fmt::Formatter<'_>) -> fmt::Result {
        f.debug_struct("RegisterTree").finish_non_exhaustive()
    }
}

/// Rows of registers as a [`SyncTree`] takes them: each key in UTF-8, and of each register the bytes that are hashed.
struct ByteRows<'a, R: ?Sized> {
    rows: &'a mut R,
    /// The latest time that an entry may have that came.
    latest: u64,
}

impl<R: Registers + ?Sized> Rows for ByteRows<'_, R> {
    type Error = Failed<R::Error>;

    fn value(&mut self, key: &[u8]) -> Result<Option<Vec<u8>>, Self::Error> {
        let key = text(key)?;
        let register = self.rows.register(key).map_err(Failed::Rows)?;
        Ok(register.map(|register| hashed_at(key, &register)).transpose()?)
    }

    fn rows_in(&mut self, range: sync::Range<'_>, give: &mut sync::Give<'_>) -> Result<(), Self::Error> {
        let range = Range { first: text(range.first)?, end: range.end.map(text).transpose()? };
        let mut taken = Ok(());
        let mut give = |key: &str, register: &Register| match hashed_at(key, register) {
            Ok(value) => taken.is_ok() && give(key.as_bytes(), &value),
            Err(untaken) => {
                taken = Err(untaken);
                false
            }
        };
        self.rows.registers_in(range, &mut give).map_err(Failed::Rows)?;
        Ok(taken?)
    }

    fn join(&mut self, came: &Came) -> Result<Vec<Row>, Self::Error> {
        let changed = self.rows.join(entries_of(came, self.latest)?).map_err(Failed::Rows)?;
        let byte_row = |(key, register): Entry| -> Result<Row, Self::Error> {
            let value = hashed_at(&key, &register)?;
            Ok((key.into_bytes(), value))
        };
        changed.into_iter().map(byte_row).collect()
    }
}

/// The bytes of a register that are hashed, if `mst` takes it at this key.
fn hashed_at(key: &str, register: &Register) -> Result<Vec<u8>, Untaken> {
    register.check(key)?;
    Ok(register.hashed_bytes())
}

/// A key of a peer: a text.
fn text(key: &[u8]) -> Result<&str, Fault> {
    str::from_utf8(key).map_err(|_| Fault::Malformed)
}

/// The entries that came, if all are taken: with an [`Untaken`] as an error if one is too long, or has a time after `latest`, and with a [`Fault`] if a
/// key isn't in UTF-8.
pub fn entries_of(came: &Came, latest: u64) -> io::Result<Vec<Entry>> {
    came.iter().map(|(key, value)| entry_of(key, value, latest)).collect()
}

fn entry_of(key: &[u8], value: &[u8], latest: u64) -> io::Result<Entry> {
    let (key, register) = (text(key)?.to_owned(), Register::of_hashed_bytes(value).ok_or(Fault::Malformed)?);
    register.check_until(latest, &key)?;
    Ok((key, register))
}

/// Why a call over [`ByteRows`] failed.
fn failed_of<E>(failed: Failed<Failed<E>>) -> Failed<E> {
    match failed {
        Failed::Io(error) => Failed::Io(error),
        Failed::Rows(failed) => failed,
        Failed::NotAscending(out) => Failed::NotAscending(out),
        Failed::Untaken(untaken) => Failed::Untaken(untaken),
    }
}

/// The reply to a question of a peer. One that asks for a delta gets the [`REFUSAL`], after which `mst` asks without one. Any bytes may be given.
pub fn answer<R: Registers + ?Sized>(
    tree: &mut RegisterTree,
    rows: &mut R,
    question: &[u8],
) -> Result<Vec<u8>, Failed<R::Error>> {
    let mut rows = ByteRows { rows, latest: 0 };
    let answer = tree.answer(question)?;
    sync::reply_of(answer, &mut rows, |found| tree.answer_with(question, found)).map_err(failed_of)
}

/// Takes the reply to the question that was asked last by [`RegisterTree::ask`] or by this call. At the end it joins the rows that came, none of
/// which may have a time after `latest`, and sets the tree to them. Any bytes may be given.
pub fn take<R: Registers + ?Sized>(
    tree: &mut RegisterTree,
    rows: &mut R,
    latest: u64,
    reply: &[u8],
) -> Result<Step, Failed<R::Error>> {
    take_within(usize::MAX, latest, tree, rows, reply)
}

/// The same if no more rows than this came; else none is joined.
fn take_within<R: Registers + ?Sized>(
    most: usize,
    latest: u64,
    tree: &mut RegisterTree,
    rows: &mut R,
    reply: &[u8],
) -> Result<Step, Failed<R::Error>> {
    let mut rows = ByteRows { rows, latest };
    sync::take_within(most, &mut tree.tree, &mut rows, &for_the_tree(reply)).map_err(failed_of)
}

/// Brings the rows of a peer that serves over a connection, such as `mst serve`, and returns how many came; those of which this side has a later
/// register count too. At the end the peer is told so: then it may catch up, and this side [`serve`], over the same connection.
///
/// The errors are those of [`sync::catch_up`]. [`Failed::Io`] with an [`Untaken`] also if an entry is too long, or its time is more than a day ahead
/// of the clock. Rows and tree are then as before.
pub fn catch_up<R: Registers + ?Sized>(
    tree: &mut RegisterTree,
    rows: &mut R,
    connection: &mut (impl Read + Write),
) -> Result<usize, Failed<R::Error>> {
    catch_up_within(Limits::default(), latest(), tree, rows, connection)
}

/// The same with other limits, and another latest time.
pub fn catch_up_within<R: Registers + ?Sized>(
    limits: Limits,
    latest: u64,
    tree: &mut RegisterTree,
    rows: &mut R,
    connection: &mut (impl Read + Write),
) -> Result<usize, Failed<R::Error>> {
    let question = tree.ask()?;
    asking(limits, connection, question, |reply| take_within(limits.session_rows, latest, tree, rows, reply))
}

/// Answers a peer that catches up, such as `mst pull`, until it says that it is done or ends, and returns how many questions it was answered; those
/// that asked for a delta count too. The errors are those of [`sync::serve`], and [`Failed::Untaken`] if it reads a row that no `mst` takes.
pub fn serve<R: Registers + ?Sized>(
    tree: &mut RegisterTree,
    rows: &mut R,
    connection: &mut (impl Read + Write),
) -> Result<usize, Failed<R::Error>> {
    serve_within(Limits::default(), tree, rows, connection)
}

/// The same with other limits.
pub fn serve_within<R: Registers + ?Sized>(
    limits: Limits,
    tree: &mut RegisterTree,
    rows: &mut R,
    connection: &mut (impl Read + Write),
) -> Result<usize, Failed<R::Error>> {
    answering(limits, connection, |question| answer(tree, rows, question), is_of_the_peer)
}

/// Brings the rows of a peer into rows that others use meanwhile: [`catch_up_within`] with a tree and rows behind a `Mutex`, which `lock` locks for
/// each question and for each reply, and not while the peer is waited for. A tree is in one catch-up at a time: if another begins, this one ends
/// with [`Fault::NotAsking`].
pub fn catch_up_by<R: Registers, L: DerefMut<Target = (RegisterTree, R)>>(
    limits: Limits,
    latest: u64,
    connection: &mut (impl Read + Write),
    mut lock: impl FnMut() -> L,
) -> Result<usize, Failed<R::Error>> {
    let (question, mine) = {
        let tree = &mut lock().0;
        (tree.ask()?, tree.tree.begun)
    };
    asking(limits, connection, question, |reply| {
        let (tree, rows) = &mut *lock();
        expect_same(mine, tree.tree.begun)?;
        take_within(limits.session_rows, latest, tree, rows, reply)
    })
}

/// Serves a peer by a tree and rows behind a `Mutex`, which `lock` locks for one question at a time: [`serve_within`] in a thread of its own.
pub fn serve_by<R: Registers, L: DerefMut<Target = (RegisterTree, R)>>(
    limits: Limits,
    connection: &mut (impl Read + Write),
    mut lock: impl FnMut() -> L,
) -> Result<usize, Failed<R::Error>> {
    let answer_locked = |question: &[u8]| {
        let (tree, rows) = &mut *lock();
        answer(tree, rows, question)
    };
    answering(limits, connection, answer_locked, is_of_the_peer)
}
