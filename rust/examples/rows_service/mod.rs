//! A service over rows in a database and the tree of their digests in memory, for the examples sqlite_rows and postgres_rows. It serves each peer that
//! connects to its address and then catches up with it, and carries out lines of standard input: `put KEY VALUE`, `sync ADDRESS`, `rescan FIRST LAST`,
//! `reload`, `root`.
//!
//! The tree holds digests of committed rows alone, and is never written to the database: it is loaded by a scan when the service starts, and again after
//! any doubt.
use crate::table::Table;
use merkle_search_tree::{
    replica::Limits,
    sync::{catch_up_by, serve_by, Range, SyncTree},
};
use std::{
    env,
    error::Error,
    io,
    net::{TcpListener, TcpStream},
    process::exit,
    sync::{Arc, Mutex, MutexGuard},
    thread,
    time::Duration,
};

pub(crate) type Result<T> = std::result::Result<T, Box<dyn Error + Send + Sync>>;

/// How long a peer may be silent.
const WAIT: Duration = Duration::from_secs(30);

/// A table and its tree, for all threads of a service.
struct Service {
    place: String,
    both: Mutex<(SyncTree, Table)>,
    /// Held by the thread that catches up: a tree is in one catch-up at a time.
    turn: Mutex<()>,
}

impl Service {
    fn open(place: &str) -> Result<Self> {
        let (mut tree, mut table) = (SyncTree::default(), Table::open(place)?);
        tree.load(&mut table)?;
        Ok(Self { place: place.to_owned(), both: Mutex::new((tree, table)), turn: Mutex::default() })
    }

    /// If a thread panicked between a commit and the tree, the program ends: its next start loads the tree.
    fn lock(&self) -> MutexGuard<'_, (SyncTree, Table)> {
        self.both.lock().unwrap_or_else(|_| exit(1))
    }

    /// The same, opened and loaded anew if the database was lost, or if it isn't known how a commit ended.
    fn both(&self) -> Result<MutexGuard<'_, (SyncTree, Table)>> {
        let mut both = self.lock();
        let (tree, table) = &mut *both;
        if !table.is_in_step() {
            *table = Table::open(&self.place)?;
            tree.load(table)?;
        }
        Ok(both)
    }

    /// Joins a value with the row of its key. The tree is set after the commit, under the same lock.
    fn put(&self, key: &str, value: &str) -> Result<()> {
        let mut both = self.both()?;
        let (tree, table) = &mut *both;
        tree.extend(table.join_all(&[(key.as_bytes(), value.as_bytes())])?);
        Ok(())
    }

    /// Sets the tree to the rows from one key to another, after another program wrote or deleted some there.
    fn rescan(&self, first: &str, last: &str) -> Result<()> {
        let (mut both, end) = (self.both()?, [last.as_bytes(), &[0]].concat());
        let (tree, table) = &mut *both;
        Ok(tree.rescan(table, Range { first: first.as_bytes(), end: Some(&end) })?)
    }

    /// Loads the tree anew, after another program wrote or deleted rows anywhere.
    fn reload(&self) -> Result<()> {
        let mut both = self.both()?;
        let (tree, table) = &mut *both;
        Ok(tree.load(table)?)
    }

    fn catch_up(&self, peer: &mut TcpStream) -> Result<usize> {
        let _turn = self.turn.lock();
        drop(self.both()?);
        Ok(catch_up_by(Limits::default(), peer, || self.lock())?)
    }

    fn serve(&self, peer: &mut TcpStream) -> Result<usize> {
        drop(self.both()?);
        Ok(serve_by(Limits::default(), peer, || self.lock())?)
    }

    fn sync(&self, address: &str) -> Result<String> {
        let mut peer = waiting(TcpStream::connect(address)?)?;
        let came = self.catch_up(&mut peer)?;
        self.serve(&mut peer)?;
        Ok(format!("came: {came}"))
    }

    fn answer(&self, peer: TcpStream) -> Result<usize> {
        let mut peer = waiting(peer)?;
        self.serve(&mut peer)?;
        self.catch_up(&mut peer)
    }

    fn root(&self) -> Result<String> {
        let root = self.both()?.0.root_hash();
        Ok(root.as_bytes().iter().map(|byte| format!("{byte:02x}")).collect())
    }

    fn carry_out(&self, line: &str) -> Result<String> {
        match line.split(' ').collect::<Vec<_>>()[..] {
            ["put", key, value] => self.put(key, value),
            ["rescan", first, last] => self.rescan(first, last),
            ["reload"] => self.reload(),
            ["root"] => return self.root(),
            ["sync", address] => return self.sync(address),
            _ => return Err("no such line".into()),
        }?;
        Ok("ok".into())
    }
}

fn waiting(peer: TcpStream) -> Result<TcpStream> {
    peer.set_read_timeout(Some(WAIT))?;
    peer.set_write_timeout(Some(WAIT))?;
    Ok(peer)
}

/// Runs the service, which is called with the place of its table and an address.
pub(crate) fn run(usage: &str) -> Result<()> {
    let words: Vec<String> = env::args().skip(1).collect();
    let [place, address] = &words[..] else { return Err(format!("usage: {usage}").into()) };
    let (service, listener) = (Arc::new(Service::open(place)?), TcpListener::bind(address)?);
    let answering = service.clone();
    thread::spawn(move || {
        for peer in listener.incoming() {
            let service = answering.clone();
            thread::spawn(move || {
                if let Err(fault) = peer.map_err(Into::into).and_then(|peer| service.answer(peer)) {
                    eprintln!("a peer: {fault}");
                }
            });
        }
    });
    println!("ready");
    for line in io::stdin().lines() {
        match service.carry_out(&line?) {
            Ok(done) => println!("{done}"),
            Err(fault) => println!("error: {fault}"),
        }
    }
    Ok(())
}
