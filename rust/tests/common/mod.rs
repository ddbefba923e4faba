//! What the tests of catch-ups share: rows in maps and their joins, sides of each kind, and peers that send given bytes.
#![allow(dead_code, unused_macros)] // each test takes some of it
use merkle_search_tree::{
    builder::PageFormat,
    digest::{siphash::SipHasher, RootHash},
    replica::{self, Fault, Limits, Replica, Step, REFUSAL},
    sync::{self, SyncTree},
};
use std::{
    collections::BTreeMap,
    fmt,
    io::{self, Cursor, ErrorKind, Read, Write},
    num::NonZeroU8,
    os::unix::net::UnixStream,
    sync::{Barrier, MutexGuard},
    thread,
};

pub type Model = BTreeMap<Vec<u8>, Vec<u8>>;

pub fn draws(mut state: u64) -> impl FnMut(u64) -> u64 {
    move |below| {
        state ^= state << 13;
        state ^= state >> 7;
        state ^= state << 17;
        (state >> 16) % below
    }
}

/// At most so many rows. Some values are shorter than a digest, and some are longer.
pub fn drawn(draw: &mut impl FnMut(u64) -> u64, most: u64) -> Model {
    let rows = draw(most + 1);
    let lengths = [1, 40][draw(2) as usize];
    (0..rows)
        .map(|_| (format!("key{}", draw(400)).into_bytes(), draw(30).to_string().repeat(lengths).into_bytes()))
        .collect()
}

/// Every so many rows of 300.
pub fn every(step: usize) -> Model {
    (0..300).step_by(step).map(|i| (format!("{i}").into_bytes(), b"1".to_vec())).collect()
}

pub fn join(model: &mut Model, key: &[u8], value: &[u8]) {
    let held = model.entry(key.to_vec()).or_default();
    *held = value.max(held).to_vec();
}

/// The rows that both come to hold, by maps alone.
pub fn joined(left: &Model, right: &Model) -> Model {
    let mut rows = left.clone();
    right.iter().for_each(|(key, value)| join(&mut rows, key, value));
    rows
}

/// How many rows of the second the first hasn't.
pub fn lacked(left: &Model, right: &Model) -> usize {
    right.iter().filter(|(key, value)| left.get(*key) != Some(value)).count()
}

pub fn model(replica: &Replica) -> Model {
    replica.rows().iter().map(|(key, value)| (key.to_vec(), value.to_vec())).collect()
}

/// The key of SipHash, the level base and the page format.
pub type Settings = (SipHasher, NonZeroU8, PageFormat);

fn default_settings() -> Settings {
    (SipHasher::default(), NonZeroU8::new(16).unwrap(), PageFormat::V1)
}

/// Settings that aren't the default ones.
pub fn other_settings() -> [Settings; 3] {
    let (hasher, base, format) = default_settings();
    [
        (SipHasher::new(b"a key of SipHash"), base, format),
        (hasher.clone(), NonZeroU8::MIN, format),
        (hasher, base, PageFormat::V2),
    ]
}

/// A side of a catch-up: a replica, or rows that are elsewhere with their tree.
pub trait Side: Sized + Send + 'static {
    fn with(rows: &Model, settings: &Settings) -> Self;

    /// The rows that it has.
    fn held(&self) -> Model;
    fn root_hash(&mut self) -> RootHash;

    /// Joins a row with the one that is there.
    fn put(&mut self, key: &[u8], value: &[u8]);
    fn ask(&mut self) -> Result<Vec<u8>, Fault>;
    fn take(&mut self, reply: &[u8]) -> io::Result<Step>;
    fn answer(&mut self, question: &[u8]) -> io::Result<Vec<u8>>;
    fn catch_up_within(&mut self, limits: Limits, connection: &mut (impl Read + Write)) -> io::Result<usize>;
    fn serve_within(&mut self, limits: Limits, connection: &mut (impl Read + Write)) -> io::Result<usize>;

    fn catch_up_by<'a>(
        connection: &mut (impl Read + Write),
        lock: impl FnMut() -> MutexGuard<'a, Self>,
    ) -> io::Result<usize>;

    fn serve_by<'a>(
        connection: &mut (impl Read + Write),
        lock: impl FnMut() -> MutexGuard<'a, Self>,
    ) -> io::Result<usize>;

    fn new(rows: &Model) -> Self {
        Self::with(rows, &default_settings())
    }

    fn catch_up(&mut self, connection: &mut (impl Read + Write)) -> io::Result<usize> {
        self.catch_up_within(Limits::default(), connection)
    }

    fn serve(&mut self, connection: &mut (impl Read + Write)) -> io::Result<usize> {
        self.serve_within(Limits::default(), connection)
    }
}

impl Side for Replica {
    fn with(rows: &Model, (hasher, base, format): &Settings) -> Self {
        let mut replica = Self::with_settings(hasher, *base, *format);
        replica.extend(rows);
        replica
    }

    fn held(&self) -> Model {
        model(self)
    }

    fn root_hash(&mut self) -> RootHash {
        Self::root_hash(self)
    }

    fn put(&mut self, key: &[u8], value: &[u8]) {
        Self::put(self, key, value);
    }

    fn ask(&mut self) -> Result<Vec<u8>, Fault> {
        Self::ask(self)
    }

    fn take(&mut self, reply: &[u8]) -> io::Result<Step> {
        Ok(Self::take(self, reply)?)
    }

    fn answer(&mut self, question: &[u8]) -> io::Result<Vec<u8>> {
        Ok(Self::answer(self, question)?)
    }

    fn catch_up_within(&mut self, limits: Limits, connection: &mut (impl Read + Write)) -> io::Result<usize> {
        Self::catch_up_within(self, limits, connection)
    }

    fn serve_within(&mut self, limits: Limits, connection: &mut (impl Read + Write)) -> io::Result<usize> {
        Self::serve_within(self, limits, connection)
    }

    fn catch_up_by<'a>(
        connection: &mut (impl Read + Write),
        lock: impl FnMut() -> MutexGuard<'a, Self>,
    ) -> io::Result<usize> {
        replica::catch_up_by(Limits::default(), connection, lock)
    }

    fn serve_by<'a>(
        connection: &mut (impl Read + Write),
        mut lock: impl FnMut() -> MutexGuard<'a, Self>,
    ) -> io::Result<usize> {
        replica::serve_by(Limits::default(), connection, |question| lock().answer(question))
    }
}

/// Rows in a map, and their tree.
pub type Store = (SyncTree, Model);

impl Side for Store {
    fn with(rows: &Model, (hasher, base, format): &Settings) -> Self {
        let (mut tree, mut rows) = (SyncTree::with_settings(hasher, *base, *format), rows.clone());
        tree.load(&mut rows).unwrap();
        (tree, rows)
    }

    fn held(&self) -> Model {
        self.1.clone()
    }

    fn root_hash(&mut self) -> RootHash {
        self.0.root_hash()
    }

    fn put(&mut self, key: &[u8], value: &[u8]) {
        join(&mut self.1, key, value);
        self.0.set(key, &self.1[key]);
    }

    fn ask(&mut self) -> Result<Vec<u8>, Fault> {
        self.0.ask()
    }

    fn take(&mut self, reply: &[u8]) -> io::Result<Step> {
        Ok(sync::take(&mut self.0, &mut self.1, reply)?)
    }

    fn answer(&mut self, question: &[u8]) -> io::Result<Vec<u8>> {
        Ok(sync::answer(&mut self.0, &mut self.1, question)?)
    }

    fn catch_up_within(&mut self, limits: Limits, connection: &mut (impl Read + Write)) -> io::Result<usize> {
        Ok(sync::catch_up_within(limits, &mut self.0, &mut self.1, connection)?)
    }

    fn serve_within(&mut self, limits: Limits, connection: &mut (impl Read + Write)) -> io::Result<usize> {
        Ok(sync::serve_within(limits, &mut self.0, &mut self.1, connection)?)
    }

    fn catch_up_by<'a>(
        connection: &mut (impl Read + Write),
        lock: impl FnMut() -> MutexGuard<'a, Self>,
    ) -> io::Result<usize> {
        Ok(sync::catch_up_by(Limits::default(), connection, lock)?)
    }

    fn serve_by<'a>(
        connection: &mut (impl Read + Write),
        lock: impl FnMut() -> MutexGuard<'a, Self>,
    ) -> io::Result<usize> {
        Ok(sync::serve_by(Limits::default(), connection, lock)?)
    }
}

/// Calls a function of two kinds of sides with each pair of them.
macro_rules! of_each_pair {
    ($call:ident) => {
        $call::<Replica, Replica>();
        $call::<Replica, Store>();
        $call::<Store, Replica>();
        $call::<Store, Store>();
    };
}

/// Makes tests of each kind of side.
macro_rules! of_each_kind {
    ($($name:ident,)*) => {
        mod replicas {
            $(#[test]
            fn $name() {
                super::$name::<merkle_search_tree::replica::Replica>();
            })*
        }

        mod rows_elsewhere {
            $(#[test]
            fn $name() {
                super::$name::<crate::common::Store>();
            })*
        }
    };
}

/// A side with every so many rows of 300.
pub fn of<S: Side>(step: usize) -> S {
    S::new(&every(step))
}

/// Checks which rows a side with the default settings has, and that its tree is that of these.
#[track_caller]
pub fn assert_has(side: &mut impl Side, rows: &Model) {
    assert_eq!(side.held(), *rows);
    assert_eq!(side.root_hash(), Replica::from_iter(rows).root_hash());
}

/// A catch-up without a connection: how many rows came, and how many bytes went both ways.
pub fn by_steps(
    asking: &mut impl Side,
    mut answer: impl FnMut(&[u8]) -> io::Result<Vec<u8>>,
) -> io::Result<(usize, usize)> {
    let (mut question, mut size) = (asking.ask()?, 0);
    loop {
        let reply = answer(&question).unwrap_or_else(|_| REFUSAL.to_vec());
        size += question.len() + reply.len();
        match asking.take(&reply)? {
            Step::Ask(next) => question = next,
            Step::Joined(came) => return Ok((came, size)),
        }
    }
}

/// What a peer says in a catch-up.
pub fn said<S: Side>(asking: &mut S, peer: &mut S) -> Vec<Vec<u8>> {
    let mut said = Vec::new();
    by_steps(asking, |question| {
        let reply = peer.answer(question)?;
        said.push(reply.clone());
        Ok(reply)
    })
    .unwrap();
    said
}

/// A catch-up each way over one connection: how many rows came to each side.
pub fn both_ways(left: &mut impl Side, right: &mut impl Side) -> [io::Result<usize>; 2] {
    let (ours, theirs) = UnixStream::pair().unwrap();
    both_ways_over(left, right, ours, theirs)
}

/// The same over the two ends of a connection.
pub fn both_ways_over(
    left: &mut impl Side,
    right: &mut impl Side,
    mut ours: impl Read + Write,
    mut theirs: UnixStream,
) -> [io::Result<usize>; 2] {
    thread::scope(|scope| {
        let peer = scope.spawn(move || {
            right.serve(&mut theirs)?;
            right.catch_up(&mut theirs)
        });
        let came = left.catch_up(&mut ours).and_then(|came| left.serve(&mut ours).map(|_| came));
        drop(ours);
        [came, peer.join().unwrap()]
    })
}

/// Why a session ended.
#[track_caller]
pub fn kind<T: fmt::Debug>(ended: io::Result<T>) -> ErrorKind {
    ended.unwrap_err().kind()
}

/// The same, if it is by what a peer sent.
#[track_caller]
pub fn fault<T: fmt::Debug>(ended: io::Result<T>) -> Fault {
    *ended.unwrap_err().get_ref().and_then(|error| error.downcast_ref::<Fault>()).expect("a fault")
}

/// The bytes of messages over a connection.
pub fn framed<M: AsRef<[u8]>>(messages: &[M]) -> Vec<u8> {
    let frame = |message: &[u8]| [&(message.len() as u64).to_le_bytes(), message].concat();
    messages.iter().flat_map(|message| frame(message.as_ref())).collect()
}

/// A number of a message (docs/WIRE.md).
pub fn count(number: usize) -> Vec<u8> {
    let (low, rest) = (number as u8 & 127, number >> 7);
    if rest == 0 {
        vec![low]
    } else {
        [vec![low | 128], count(rest)].concat()
    }
}

/// A key of a message, after the one before it in a run.
pub fn key_behind(last: &mut Vec<u8>, key: &[u8]) -> Vec<u8> {
    let whole = [&count(key.len())[..], key].concat();
    let kept = last.iter().zip(&whole).take_while(|(one, other)| one == other).count();
    let more = whole.len() - kept;
    *last = whole[..whole.len().min(255)].to_vec();
    let front = match (kept, more) {
        (0..15, 0..16) => vec![(16 * kept + more) as u8],
        _ => [vec![240], count(kept), count(more)].concat(),
    };
    [&front[..], &whole[kept..]].concat()
}

/// A peer that sends given bytes, and keeps what it is sent.
pub struct Peer {
    sends: Cursor<Vec<u8>>,
    pub heard: Vec<u8>,
}

impl Peer {
    pub fn sending(bytes: &[u8]) -> Self {
        Self { sends: Cursor::new(bytes.to_vec()), heard: Vec::new() }
    }

    pub fn saying<M: AsRef<[u8]>>(messages: &[M]) -> Self {
        Self::sending(&framed(messages))
    }

    pub fn was_refused(&self) -> bool {
        self.heard.ends_with(&framed(&[REFUSAL]))
    }
}

impl Read for Peer {
    fn read(&mut self, out: &mut [u8]) -> io::Result<usize> {
        self.sends.read(out)
    }
}

impl Write for Peer {
    fn write(&mut self, bytes: &[u8]) -> io::Result<usize> {
        self.heard.write(bytes)
    }

    fn flush(&mut self) -> io::Result<()> {
        Ok(())
    }
}

/// A connection that waits for another catch-up to have begun before its first bytes go.
pub struct Begun<'a>(pub UnixStream, pub Option<&'a Barrier>);

impl Read for Begun<'_> {
    fn read(&mut self, out: &mut [u8]) -> io::Result<usize> {
        self.0.read(out)
    }
}

impl Write for Begun<'_> {
    fn write(&mut self, bytes: &[u8]) -> io::Result<usize> {
        self.1.take().map(Barrier::wait);
        self.0.write(bytes)
    }

    fn flush(&mut self) -> io::Result<()> {
        self.0.flush()
    }
}
