//! Two peers that catch up with each other under tokio, over a socket of 127.0.0.1: `tokio_peers` prints how many rows came to each, and the
//! rows that both then have.
//!
//! The calls of a `SyncTree` wait for nothing, so a task awaits the socket and the table between them. The table here is in memory; the calls of
//! a database are awaited at the same places. Of two values of a key the greater stays, so a value begins with its time.
use merkle_search_tree::{
    replica::{Fault, REFUSAL},
    sync::{Answer, Came, Found, Next, Range, Row, Rows, SyncTree},
};
use std::{
    collections::BTreeMap,
    error::Error,
    io::{self, ErrorKind},
    time::Duration,
};
use tokio::{
    io::{AsyncReadExt, AsyncWriteExt},
    net::{TcpListener, TcpStream},
    runtime::Builder,
    time::timeout,
};

type Result<T, E = Box<dyn Error + Send + Sync>> = std::result::Result<T, E>;

/// How long one message may take to come or to go.
const WAIT: Duration = Duration::from_secs(30);
/// How many bytes a message has at most.
const LIMIT: u64 = 1 << 28;
/// How many questions one catch-up asks, or is answered, at most.
const MESSAGES: usize = 1 << 16;
/// How many rows the table gives at once.
const PIECE: usize = 100;

/// A table whose calls are awaited.
struct Table(BTreeMap<Vec<u8>, Vec<u8>>);

impl Table {
    async fn value(&self, key: &[u8]) -> Result<Option<Vec<u8>>> {
        Ok(self.0.get(key).cloned())
    }

    /// The first rows in a range.
    async fn some(&self, range: Range<'_>) -> Result<Vec<Row>> {
        let rows = self.0.range::<[u8], _>(range).take(PIECE);
        Ok(rows.map(|(key, value)| (key.clone(), value.clone())).collect())
    }

    /// Joins rows with those of their keys in one transaction, and returns those that it changed.
    async fn join(&mut self, came: &Came) -> Result<Vec<Row>> {
        Ok(self.0.join(came)?)
    }
}

/// A table and the tree of its digests.
struct Peer {
    table: Table,
    tree: SyncTree,
}

impl Peer {
    fn of(rows: &[(&str, &str)]) -> Self {
        let rows = rows.iter().map(|(key, value)| (key.as_bytes().to_vec(), value.as_bytes().to_vec()));
        let table = Table(rows.collect());
        let tree = table.0.iter().collect();
        Self { table, tree }
    }

    /// Brings the rows of a peer that serves, joins them, and returns how many came.
    async fn catch_up(&mut self, connection: &mut TcpStream) -> Result<usize> {
        let mut question = self.tree.ask()?;
        for _ in 0..MESSAGES {
            send(connection, &question).await?;
            let reply = receive(connection).await?.ok_or(ErrorKind::UnexpectedEof).map_err(io::Error::from)?;
            match self.tree.take(&reply)? {
                Next::Ask(next) => question = next,
                Next::Came(came) => {
                    self.tree.extend(self.table.join(&came).await?);
                    send(connection, &[]).await?;
                    return Ok(came.len());
                }
            }
        }
        Err("the peer isn't done after as many questions as it may be asked".into())
    }

    /// Answers a peer that catches up, until it says that it is done or ends.
    async fn serve(&mut self, connection: &mut TcpStream) -> Result<()> {
        for _ in 0..MESSAGES {
            let question = receive(connection).await?.unwrap_or_default();
            if question.is_empty() {
                return Ok(());
            }
            match self.reply_to(&question).await {
                Ok(reply) => send(connection, &reply).await?,
                Err(error) => {
                    if matches!(error.downcast_ref(), Some(Fault::Malformed | Fault::OtherSettings)) {
                        send(connection, &REFUSAL).await?;
                    }
                    return Err(error);
                }
            }
        }
        Err("the peer isn't done after as many questions as it may ask".into())
    }

    async fn reply_to(&mut self, question: &[u8]) -> Result<Vec<u8>> {
        let found = match self.tree.answer(question)? {
            Answer::Reply(reply) => return Ok(reply),
            Answer::NeedsKeys(keys) => {
                let mut found = keys.found();
                for key in keys.iter() {
                    if !found.value(key, self.table.value(key).await?.as_deref()) {
                        break;
                    }
                }
                found
            }
            Answer::NeedsRanges(ranges) => {
                let mut found = ranges.found();
                for range in ranges.iter() {
                    if !find(range, &self.table, &mut found).await? {
                        break;
                    }
                }
                found
            }
        };
        Ok(self.tree.answer_with(question, found)?)
    }
}

/// Looks up the rows in a range, and says whether others are needed.
async fn find(range: Range<'_>, table: &Table, found: &mut Found) -> Result<bool> {
    let mut first = range.first.to_vec();
    loop {
        let rows = table.some(Range { first: &first, end: range.end }).await?;
        let others_are_needed = rows.iter().all(|(key, value)| found.row(range, key, value));
        match rows.last() {
            Some((last, _)) if others_are_needed && rows.len() == PIECE => first = [last, &[0][..]].concat(),
            _ => return Ok(others_are_needed),
        }
    }
}

/// Sends a message after how many bytes it has, in eight bytes, the lowest first. One of no bytes ends a catch-up.
async fn send(connection: &mut TcpStream, message: &[u8]) -> Result<()> {
    let framed = [&(message.len() as u64).to_le_bytes(), message].concat();
    Ok(timeout(WAIT, connection.write_all(&framed)).await??)
}

/// The next message of the peer; `None` if it ends in place of one.
async fn receive(connection: &mut TcpStream) -> Result<Option<Vec<u8>>> {
    Ok(timeout(WAIT, read(connection)).await??)
}

async fn read(connection: &mut TcpStream) -> io::Result<Option<Vec<u8>>> {
    let mut front = [0; 8];
    if connection.read(&mut front[..1]).await? == 0 {
        return Ok(None);
    }
    connection.read_exact(&mut front[1..]).await?;
    let (len, mut message) = (u64::from_le_bytes(front), Vec::new());
    if len > LIMIT {
        return Err(ErrorKind::InvalidData.into());
    }
    connection.take(len).read_to_end(&mut message).await?;
    if (message.len() as u64) < len {
        return Err(ErrorKind::UnexpectedEof.into());
    }
    Ok(Some(message))
}

async fn answer_one(listener: TcpListener, mut peer: Peer) -> Result<Peer> {
    let (mut connection, _) = listener.accept().await?;
    peer.serve(&mut connection).await?;
    let came = peer.catch_up(&mut connection).await?;
    println!("{came} rows came to the laptop");
    Ok(peer)
}

async fn run() -> Result<()> {
    let mut office = Peer::of(&[("apple", "1131 ten"), ("kiwi", "1130 one")]);
    let laptop = Peer::of(&[("kiwi", "1207 two"), ("melon", "1208 six")]);
    let listener = TcpListener::bind("127.0.0.1:0").await?;
    let address = listener.local_addr()?;
    let answering = tokio::spawn(answer_one(listener, laptop));

    let mut connection = TcpStream::connect(address).await?;
    let came = office.catch_up(&mut connection).await?;
    println!("{came} rows came to the office");
    office.serve(&mut connection).await?;

    let mut laptop = answering.await??;
    assert_eq!(office.tree.root_hash(), laptop.tree.root_hash());
    for (key, value) in &laptop.table.0 {
        println!("{}: {}", key.escape_ascii(), value.escape_ascii());
    }
    Ok(())
}

fn main() -> Result<()> {
    Builder::new_current_thread().enable_all().build()?.block_on(run())
}
