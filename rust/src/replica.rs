//! Replicas: rows in memory with the tree over them, and catch-ups with others by messages, whose cost is what differs.
//!
//! Of two values under one key the greater stays, by the order of their bytes: so replicas that have caught up with each other hold the same
//! rows, whatever the order. This is why nothing is overwritten and nothing removed. Begin each value by what is to decide, such as eight
//! bytes of time, the highest first, and the last writer wins; for a removal put a value that says so.
//!
//! Over a connection that carries bytes in order, one side calls [`Replica::catch_up`] and the other [`Replica::serve`], and then the other
//! way round. The messages are those of docs/WIRE.md of the repository, where keys and values are byte strings, each after how many bytes it
//! has, in eight bytes, the lowest first; one of no bytes ends a catch-up. The package for Python speaks them too.
//!
//! ```
//! use merkle_search_tree::replica::Replica;
//! use std::{io, os::unix::net::UnixStream, thread};
//!
//! # fn main() -> io::Result<()> {
//! let mut office = Replica::from_iter([("apple", "1131 ten"), ("kiwi", "1130 one")]);
//! let mut laptop = Replica::from_iter([("kiwi", "1207 two"), ("melon", "1208 six")]);
//! let (mut ours, mut theirs) = UnixStream::pair()?;
//! let peer = thread::spawn(move || -> io::Result<Replica> {
//!     laptop.serve(&mut theirs)?;
//!     laptop.catch_up(&mut theirs)?;
//!     Ok(laptop)
//! });
//! assert_eq!(office.catch_up(&mut ours)?, 2);
//! office.serve(&mut ours)?;
//! assert_eq!(office.get("kiwi").as_deref(), Some(&b"1207 two"[..]));
//! assert_eq!(office.root_hash(), peer.join().unwrap()?.root_hash());
//! # Ok(())
//! # }
//! ```
//!
//! Any other transport carries the messages of [`Replica::ask`], [`Replica::answer`] and [`Replica::take`].
use crate::{
    builder::{PageFormat, LEVEL_BASE},
    digest::{siphash::SipHasher, PageDigest, RootHash},
    granted, list,
    settings::Settings,
    sys::{self, Refused},
    wire::{self, unexpected, Bounds, TOO_LONG},
    OutOfMemory,
};
use std::{
    cell::{Cell, RefCell, RefMut},
    error::Error,
    fmt,
    io::{self, ErrorKind, Read, Write},
    iter::FusedIterator,
    num::NonZeroU8,
    ops::DerefMut,
};

/// The message that says that a question was refused.
pub const REFUSAL: [u8; 2] = [1, 255];

/// What is taken of a peer.
#[derive(Debug, Clone, Copy, PartialEq, Eq)]
pub struct Limits {
    /// How many bytes a message has at most. The keys that one spells may have 64 times its bytes together. A reply ends by 64 MiB, with the
    /// row that reaches them.
    pub bytes: u64,
    /// How many questions one catch-up asks, or is answered, at most. A peer that keeps to the messages needs far fewer than a thousand, and
    /// one for each further 64 MiB.
    pub messages: usize,
    /// How many bytes the messages of one catch-up have together at most, those that are sent and those that come.
    pub session_bytes: u64,
    /// How many rows one catch-up brings at most: if more come, none is joined. This bounds a [`SyncTree`](crate::sync::SyncTree) and a
    /// [`RegisterTree`](crate::register::RegisterTree): a [`Replica`] joins what comes within the other bounds.
    pub session_rows: usize,
}

impl Default for Limits {
    /// 2^28 bytes, 2^16 messages, and for all of a catch-up 2^32 bytes (4 GiB) and 2^26 rows.
    fn default() -> Self {
        Self { bytes: 1 << 28, messages: 1 << 16, session_bytes: 1 << 32, session_rows: 1 << 26 }
    }
}

/// Why a question isn't answered, or a catch-up ended early. As an [`io::Error`] it is of the kind `InvalidData`, but for
/// [`Fault::OutOfMemory`], which is of that name, and [`Fault::NotAsking`] and [`Fault::OtherRows`], which are `InvalidInput`; `get_ref` gives it
/// back.
#[derive(Debug, Clone, Copy, PartialEq, Eq)]
pub enum Fault {
    /// The bytes are no question, or no reply to what was asked.
    Malformed,
    /// The peer that asks has another key of SipHash, level base or page format.
    OtherSettings,
    /// The peer refused what it was asked, mostly since its settings are others.
    Refused,
    /// No catch-up is under way, or another began in the place of this one.
    NotAsking,
    /// The rows that were found aren't those that the question needs ([`SyncTree::answer_with`](crate::sync::SyncTree::answer_with)).
    OtherRows,
    /// Out of memory, when this many of the rows that came were joined, the first in the order of their keys.
    OutOfMemory {
        /// How many rows these are: none but where the last reply had come.
        joined: usize,
    },
}

impl Fault {
    pub(crate) fn of(refused: Refused, joined: usize) -> Self {
        match refused {
            Refused::Malformed => Self::Malformed,
            Refused::OtherSettings => Self::OtherSettings,
            Refused::ByPeer => Self::Refused,
            Refused::Absent => Self::NotAsking,
            Refused::Rows => Self::OtherRows,
            Refused::Memory => Self::OutOfMemory { joined },
        }
    }
}

impl fmt::Display for Fault {
    fn fmt(&self, f: &mut fmt::Formatter<'_>) -> fmt::Result {
        match self {
            Self::Malformed => f.write_str("the peer's message is no question, or no reply to what was asked"),
            Self::OtherSettings => f.write_str("the peer that asks has other settings"),
            Self::Refused => f.write_str(
                "the peer refused what it was asked: its settings may be others, or it met a limit of its own",
            ),
            Self::NotAsking => f.write_str("no catch-up is under way, or another began in the place of this one"),
            Self::OtherRows => f.write_str("the rows that were found aren't those that the question needs"),
            Self::OutOfMemory { joined } => write!(f, "memory was refused; {joined} of the rows that came are joined"),
        }
    }
}

impl Error for Fault {}

impl From<OutOfMemory> for Fault {
    fn from(_: OutOfMemory) -> Self {
        Self::OutOfMemory { joined: 0 }
    }
}

impl From<Fault> for io::Error {
    fn from(fault: Fault) -> Self {
        let kind = match fault {
            Fault::Malformed | Fault::OtherSettings | Fault::Refused => ErrorKind::InvalidData,
            Fault::NotAsking | Fault::OtherRows => ErrorKind::InvalidInput,
            Fault::OutOfMemory { .. } => ErrorKind::OutOfMemory,
        };
        Self::new(kind, fault)
    }
}

/// What comes next in a catch-up.
#[derive(Debug, Clone, PartialEq, Eq)]
pub enum Step {
    /// This question is to be sent to the peer.
    Ask(Vec<u8>),
    /// So many rows came, and are joined; those of which this side has the greater value count too. The catch-up is over.
    Joined(usize),
}

/// Rows in memory with the tree over them: a map from byte strings to byte strings, in which of two values under one key the greater stays.
///
/// ```
/// use merkle_search_tree::replica::{Fault, Replica, Step};
///
/// # fn main() -> Result<(), Fault> {
/// let mut office = Replica::from_iter([("apple", "1131 ten")]);
/// office.put("apple", "1055 two");
/// assert_eq!(office.get("apple").as_deref(), Some(&b"1131 ten"[..]));
/// let mut laptop = Replica::from_iter([("melon", "1208 six")]);
///
/// let mut question = office.ask()?;
/// let came = loop {
///     let reply = laptop.answer(&question)?; // what a connection would carry
///     match office.take(&reply)? {
///         Step::Ask(next) => question = next,
///         Step::Joined(came) => break came,
///     }
/// };
/// assert_eq!(came, 1);
/// for (key, value) in &office.rows() {
///     println!("{}: {}", key.escape_ascii(), value.escape_ascii());
/// }
/// # Ok(())
/// # }
/// ```
///
/// A call that neither is `try_..` nor answers a [`Fault`] ends the program where memory is refused, as Rust's collections do.
///
/// A replica goes from thread to thread, and one thread at a time uses it: it is `Send`, and not `Sync`. A `Mutex` shares it: [`serve_by`]
/// then locks it for one question at a time, and [`catch_up_by`] for one reply.
///
/// ```compile_fail,E0277
/// let replica = merkle_search_tree::replica::Replica::default();
/// std::thread::scope(|scope| {
///     scope.spawn(|| replica.len());
/// });
/// ```
pub struct Replica {
    replica: sys::Replica,
    settings: Settings,
    /// A little more than the bytes of the last list of rows.
    guess: Cell<usize>,
    /// How many catch-ups began.
    begun: u64,
}

impl Default for Replica {
    /// A replica without rows, under the zero key of SipHash, with level base 16 and page format 1.
    fn default() -> Self {
        Self::with_settings(&SipHasher::default(), LEVEL_BASE, PageFormat::V1)
    }
}

impl Replica {
    /// A replica without rows, with these settings, which are those of a tree ([`Builder`](crate::builder::Builder)). Replicas that catch up
    /// with each other have all three in common, and refuse others.
    pub fn with_settings(hasher: &SipHasher, level_base: NonZeroU8, page_format: PageFormat) -> Self {
        granted(Self::try_with_settings(hasher, level_base, page_format))
    }

    /// The same; refused where memory is.
    pub fn try_with_settings(
        hasher: &SipHasher,
        level_base: NonZeroU8,
        page_format: PageFormat,
    ) -> Result<Self, OutOfMemory> {
        let replica = sys::Replica::new(hasher.key(), level_base.get(), page_format.number())?;
        let settings = Settings { hasher: hasher.clone(), level_base, page_format };
        Ok(Self { replica, settings, guess: Cell::new(1024), begun: 0 })
    }

    /// Joins a value at a key: where there is one, the greater of both stays. A new key takes time in proportion to the rows after it, at a
    /// few nanoseconds each: put many rows in the order of their keys, as `extend` and `collect` do.
    pub fn put(&mut self, key: impl AsRef<[u8]>, value: impl AsRef<[u8]>) {
        granted(self.try_put(key, value));
    }

    /// The same; refused where memory is, and then the replica is as before.
    pub fn try_put(&mut self, key: impl AsRef<[u8]>, value: impl AsRef<[u8]>) -> Result<(), OutOfMemory> {
        self.replica.put(key.as_ref(), value.as_ref())
    }

    /// A copy of the value at a key, where the key is there.
    pub fn get(&self, key: impl AsRef<[u8]>) -> Option<Vec<u8>> {
        const GUESS: usize = 64;
        match self.replica.get(key.as_ref(), GUESS) {
            Ok(value) => Some(value),
            Err(Refused::Absent) => None,
            Err(_) => granted(Err(OutOfMemory)),
        }
    }

    /// Whether a key is there.
    pub fn contains_key(&self, key: impl AsRef<[u8]>) -> bool {
        granted(self.replica.has(key.as_ref()))
    }

    /// How many rows there are.
    pub fn len(&self) -> usize {
        self.replica.len()
    }

    /// Whether there is none.
    pub fn is_empty(&self) -> bool {
        self.len() == 0
    }

    /// A copy of the rows, in the order of their keys.
    pub fn rows(&self) -> Rows {
        let list = granted(self.replica.rows(self.guess.get()));
        self.guess.set(list.len() + list.len() / 8);
        Rows::of_list(list)
    }

    /// The root hash: that of a tree of the same rows and settings. Replicas with the same settings and equal root hashes have the same rows,
    /// while digests don't collide. It hashes the pages that changed, and takes no memory.
    pub fn root_hash(&mut self) -> RootHash {
        RootHash::new(PageDigest::new(self.replica.root_hash()))
    }

    /// The reply to a question of a peer that catches up. Any bytes may be given. [`Fault::Malformed`] where they are no question, and
    /// [`Fault::OtherSettings`] where the peer has other settings: the peer is to be sent [`REFUSAL`] then. The rows are as before, and
    /// nothing is kept between questions.
    pub fn answer(&mut self, question: &[u8]) -> Result<Vec<u8>, Fault> {
        self.replica.answer(question).map_err(|refused| Fault::of(refused, 0))
    }

    /// Begins a catch-up, in place of one that is under way, and answers its first question. The rows are as before.
    pub fn ask(&mut self) -> Result<Vec<u8>, Fault> {
        let question = self.replica.ask()?;
        self.begun += 1;
        Ok(self.settings.told(question)?)
    }

    /// Takes the reply to the question that was asked last: any bytes may be given. The rows that come are joined at the end, all at once;
    /// what is put in between stays. Refused, the catch-up is over, and the rows are as before but for [`Fault::OutOfMemory`].
    /// [`Fault::Malformed`] comes too where rows were put into the peer's in between, so that a key came twice: then begin again.
    pub fn take(&mut self, reply: &[u8]) -> Result<Step, Fault> {
        self.replica.take(reply).map_err(|(refused, joined)| Fault::of(refused, joined))
    }

    /// Brings the rows of a peer that serves over a connection, and answers how many came. At the end the peer is told so: then it may catch
    /// up, and this side serve, over the same connection.
    ///
    /// An error of the connection is answered as it is; `UnexpectedEof` where the peer ends before, and as an `InvalidData` what
    /// [`Replica::take`] refuses and what is above the limits. The rows are then as before, but for [`Fault::OutOfMemory`], and where it is
    /// the end that can't be told. An honest peer into whose replica rows are put meanwhile may be refused, too: then begin again, over a
    /// connection of its own.
    pub fn catch_up(&mut self, connection: &mut (impl Read + Write)) -> io::Result<usize> {
        self.catch_up_within(Limits::default(), connection)
    }

    /// The same with other limits.
    pub fn catch_up_within(&mut self, limits: Limits, connection: &mut (impl Read + Write)) -> io::Result<usize> {
        let only = RefCell::new(self);
        catch_up_by(limits, connection, || RefMut::map(only.borrow_mut(), |replica| &mut **replica))
    }

    /// Answers a peer that catches up, until it says that it is done or ends, and answers how many questions it was answered.
    ///
    /// An error of the connection is answered as it is; `UnexpectedEof` where the peer ends within a message, and as an `InvalidData` what
    /// [`Replica::answer`] refuses and what is above the limits: the peer is sent the refusal first, if it is still there.
    pub fn serve(&mut self, connection: &mut (impl Read + Write)) -> io::Result<usize> {
        self.serve_within(Limits::default(), connection)
    }

    /// The same with other limits.
    pub fn serve_within(&mut self, limits: Limits, connection: &mut (impl Read + Write)) -> io::Result<usize> {
        serve_by(limits, connection, |question| self.answer(question))
    }
}

/// Brings the rows of a peer into a replica that others use meanwhile, and answers how many came: [`Replica::catch_up_within`] of a replica
/// behind a `Mutex`, which `lock` locks for each question and for each reply, and not while the peer is waited for. So two that hold one
/// replica each may catch up with each other at the same time, while other threads of both answer by [`serve_by`].
///
/// A replica is in one catch-up at a time. Where another begins, this one ends with [`Fault::NotAsking`]: hold another lock round each
/// catch-up, and none round what answers.
///
/// ```
/// use merkle_search_tree::replica::{catch_up_by, serve_by, Limits, Replica};
/// use std::{io, os::unix::net::UnixStream, sync::Mutex, thread};
///
/// let [office, laptop] = ["kiwi", "melon"].map(|key| Mutex::new(Replica::from_iter([(key, "1130 one")])));
/// thread::scope(|scope| {
///     for (asks, answers) in [(&office, &laptop), (&laptop, &office)] {
///         let (mut ours, mut theirs) = UnixStream::pair().unwrap();
///         scope.spawn(move || serve_by(Limits::default(), &mut theirs, |question| answers.lock().unwrap().answer(question)));
///         scope.spawn(move || catch_up_by(Limits::default(), &mut ours, || asks.lock().unwrap()).unwrap());
///     }
/// });
/// assert_eq!(office.lock().unwrap().root_hash(), laptop.lock().unwrap().root_hash());
/// ```
pub fn catch_up_by<L: DerefMut<Target = Replica>>(
    limits: Limits,
    connection: &mut (impl Read + Write),
    mut lock: impl FnMut() -> L,
) -> io::Result<usize> {
    let (question, mine) = {
        let mut replica = lock();
        (replica.ask()?, replica.begun)
    };
    asking(limits, connection, question, |reply| {
        let mut replica = lock();
        expect_same(mine, replica.begun)?;
        Ok(replica.take(reply)?)
    })
}

/// [`Fault::NotAsking`] if another catch-up began in the place of one: they have other numbers.
pub(crate) fn expect_same(mine: u64, begun: u64) -> Result<(), Fault> {
    if mine == begun {
        Ok(())
    } else {
        Err(Fault::NotAsking)
    }
}

/// The asking side over a connection, by a call that takes each reply.
pub(crate) fn asking<E: From<io::Error>>(
    limits: Limits,
    connection: &mut (impl Read + Write),
    question: Vec<u8>,
    mut take: impl FnMut(&[u8]) -> Result<Step, E>,
) -> Result<usize, E> {
    let caught_up = ask_all(limits, connection, question, &mut take);
    if caught_up.is_err() {
        // No bytes are a reply to no question: what came of a catch-up that is still under way is let go.
        let _ = take(&[]);
    }
    caught_up
}

/// Asks until all came.
fn ask_all<E: From<io::Error>>(
    limits: Limits,
    connection: &mut (impl Read + Write),
    mut question: Vec<u8>,
    mut take: impl FnMut(&[u8]) -> Result<Step, E>,
) -> Result<usize, E> {
    let mut left = limits.session_bytes;
    for _ in 0..limits.messages {
        wire::send(connection, &question)?;
        left = less(left, question.len())?;
        let reply = wire::take(connection, Bounds { message: limits.bytes, session: left })?;
        left = less(left, reply.len())?;
        match take(&reply)? {
            Step::Ask(next) => question = next,
            Step::Joined(came) => {
                wire::send(connection, &[])?;
                return Ok(came);
            }
        }
    }
    Err(unexpected(TOO_MANY).into())
}

/// Serves a peer by a call that answers each question, as [`Replica::answer`] of a replica behind a `Mutex`, which is locked for that alone.
///
/// ```
/// use merkle_search_tree::replica::{serve_by, Limits, Replica};
/// use std::{io, os::unix::net::UnixStream, sync::Mutex, thread};
///
/// let hub = Mutex::new(Replica::from_iter([("kiwi", "1130 one")]));
/// thread::scope(|scope| {
///     for _ in 0..4 {
///         let (mut ours, mut theirs) = UnixStream::pair().unwrap();
///         scope.spawn(|| serve_by(Limits::default(), &mut { ours }, |question| hub.lock().unwrap().answer(question)));
///         scope.spawn(move || assert_eq!(Replica::default().catch_up(&mut theirs).unwrap(), 1));
///     }
/// });
/// ```
pub fn serve_by(
    limits: Limits,
    connection: &mut (impl Read + Write),
    mut answer: impl FnMut(&[u8]) -> Result<Vec<u8>, Fault>,
) -> io::Result<usize> {
    let is_refused = |error: &io::Error| error.kind() == ErrorKind::InvalidData;
    answering(limits, connection, |question| answer(question).map_err(io::Error::from), is_refused)
}

/// The answering side over a connection. The peer is told of errors by which it is refused.
pub(crate) fn answering<E: From<io::Error>>(
    limits: Limits,
    connection: &mut (impl Read + Write),
    mut answer: impl FnMut(&[u8]) -> Result<Vec<u8>, E>,
    is_refused: impl Fn(&E) -> bool,
) -> Result<usize, E> {
    let (mut answered, mut left) = (0, limits.session_bytes);
    loop {
        let reply = match wire::take_or_end(connection, Bounds { message: limits.bytes, session: left }) {
            Ok(None) => return Ok(answered),
            Ok(Some(question)) if question.is_empty() => return Ok(answered),
            Ok(Some(_)) if answered == limits.messages => Err(unexpected(TOO_MANY).into()),
            Ok(Some(question)) => answer(&question).and_then(|reply| {
                left = less(left, question.len() + reply.len())?;
                Ok(reply)
            }),
            Err(error) => Err(error.into()),
        };
        match reply {
            Ok(reply) => wire::send(connection, &reply)?,
            Err(error) => {
                if is_refused(&error) {
                    // The peer may be gone, which says less than why it is refused.
                    let _ = wire::send(connection, &REFUSAL);
                }
                return Err(error);
            }
        }
        answered += 1;
    }
}

/// What is left of the bytes of a session after a message.
fn less(left: u64, bytes: usize) -> io::Result<u64> {
    left.checked_sub(bytes as u64).ok_or_else(|| unexpected(TOO_LONG))
}

const TOO_MANY: &str = "the peer isn't done after as many questions as the limit allows";
pub(crate) const TOO_MANY_ROWS: &str = "more rows came than the limit allows";

/// All rows are taken first, and put in the order of their keys, which is the fast one.
impl<K: AsRef<[u8]>, V: AsRef<[u8]>> Extend<(K, V)> for Replica {
    fn extend<T: IntoIterator<Item = (K, V)>>(&mut self, rows: T) {
        let mut rows = Vec::from_iter(rows);
        rows.sort_by(|(one, _), (other, _)| one.as_ref().cmp(other.as_ref()));
        rows.into_iter().for_each(|(key, value)| self.put(key, value));
    }
}

impl<K: AsRef<[u8]>, V: AsRef<[u8]>> FromIterator<(K, V)> for Replica {
    fn from_iter<T: IntoIterator<Item = (K, V)>>(rows: T) -> Self {
        let mut replica = Self::default();
        replica.extend(rows);
        replica
    }
}

impl fmt::Debug for Replica {
    fn fmt(&self, f: &mut fmt::Formatter<'_>) -> fmt::Result {
        f.debug_struct("Replica").field("len", &self.len()).finish_non_exhaustive()
    }
}

/// The rows that a replica had at one time, or that came in a catch-up ([`Came`](crate::sync::Came)), in the order of their keys.
pub struct Rows {
    list: Vec<u8>,
}

impl Rows {
    /// The rows of a list of rows, as the library writes it.
    pub(crate) fn of_list(list: Vec<u8>) -> Self {
        Self { list }
    }

    /// How many rows there are.
    pub fn len(&self) -> usize {
        list::count(&self.list)
    }

    /// Whether there is none.
    pub fn is_empty(&self) -> bool {
        self.len() == 0
    }

    /// Goes over the rows, each its key and its value.
    pub fn iter(&self) -> RowIter<'_> {
        RowIter { rest: &self.list[list::FRONT..], left: self.len() }
    }
}

impl<'a> IntoIterator for &'a Rows {
    type Item = (&'a [u8], &'a [u8]);
    type IntoIter = RowIter<'a>;
    fn into_iter(self) -> RowIter<'a> {
        self.iter()
    }
}

impl fmt::Debug for Rows {
    fn fmt(&self, f: &mut fmt::Formatter<'_>) -> fmt::Result {
        f.debug_map().entries(self).finish()
    }
}

/// Goes over rows in the order of their keys.
pub struct RowIter<'a> {
    rest: &'a [u8],
    left: usize,
}

impl<'a> Iterator for RowIter<'a> {
    type Item = (&'a [u8], &'a [u8]);

    fn next(&mut self) -> Option<(&'a [u8], &'a [u8])> {
        let row = (list::string(&mut self.rest)?, list::string(&mut self.rest)?);
        self.left -= 1;
        Some(row)
    }

    fn size_hint(&self) -> (usize, Option<usize>) {
        (self.left, Some(self.left))
    }
}

impl ExactSizeIterator for RowIter<'_> {}
impl FusedIterator for RowIter<'_> {}

impl fmt::Debug for RowIter<'_> {
    fn fmt(&self, f: &mut fmt::Formatter<'_>) -> fmt::Result {
        f.debug_struct("RowIter").field("left", &self.left).finish_non_exhaustive()
    }
}
