//! A table of PostgreSQL. Of two values of a key the greater stays, so a value begins with its time.
use merkle_search_tree::sync::{Came, Give, Range, Row, Rows};
use std::time::Duration;
use tokio::{
    runtime::{Builder, Runtime},
    time::timeout,
};
use tokio_postgres::{Client, Error, NoTls, Statement};

type Result<T, E = Error> = std::result::Result<T, E>;

/// How long the server may take to answer that it is there.
const WAIT: Duration = Duration::from_secs(30);
/// How many rows one statement reads or writes.
const PIECE: usize = 1000;
/// PostgreSQL orders `bytea` by its bytes, as a tree does; a column of type `text` needs `COLLATE "C"`.
/// The lock waits for the commits that are running: one whose connection was lost may still end, and the tree that is loaded then needs its rows.
const TABLE: &str = "CREATE TABLE IF NOT EXISTS rows (key bytea PRIMARY KEY, value bytea NOT NULL);
    BEGIN; LOCK TABLE rows IN SHARE MODE; COMMIT";
const VALUE: &str = "SELECT value FROM rows WHERE key = $1";
const FROM: &str = "SELECT key, value FROM rows WHERE key >= $1 ORDER BY key LIMIT 1000";
const BETWEEN: &str = "SELECT key, value FROM rows WHERE key >= $1 AND key < $2 ORDER BY key LIMIT 1000";
const JOIN: &str = "INSERT INTO rows SELECT * FROM unnest($1::bytea[], $2::bytea[])
    ON CONFLICT (key) DO UPDATE SET value = excluded.value WHERE excluded.value > rows.value RETURNING key, value";

/// A client, and a runtime that waits for it. (The client of the crate `postgres` has one inside, and the same calls.)
pub(crate) struct Table {
    runtime: Runtime,
    client: Client,
    value: Statement,
    from: Statement,
    between: Statement,
    join: Statement,
    /// Whether it is known of each commit how it ended.
    in_step: bool,
}

impl Table {
    pub(crate) fn open(config: &str) -> Result<Self, Box<dyn std::error::Error + Send + Sync>> {
        let runtime = Builder::new_current_thread().enable_all().build()?;
        let (client, connection) = runtime.block_on(tokio_postgres::connect(config, NoTls))?;
        runtime.spawn(connection);
        let [value, from, between, join] = runtime.block_on(async {
            client.batch_execute(TABLE).await?;
            let (value, from) = (client.prepare(VALUE).await?, client.prepare(FROM).await?);
            Ok::<_, Error>([value, from, client.prepare(BETWEEN).await?, client.prepare(JOIN).await?])
        })?;
        Ok(Self { runtime, client, value, from, between, join, in_step: true })
    }

    pub(crate) fn is_in_step(&self) -> bool {
        let answered = || self.runtime.block_on(async { timeout(WAIT, self.client.simple_query("")).await });
        self.in_step && matches!(answered(), Ok(Ok(_)))
    }

    /// Joins rows with those of their keys in one transaction, and returns those that it changed.
    pub(crate) fn join_all(&mut self, rows: &[(&[u8], &[u8])]) -> Result<Vec<Row>> {
        self.in_step = false;
        let changed = self.runtime.block_on(async {
            let transaction = self.client.transaction().await?;
            let mut changed = Vec::new();
            for piece in rows.chunks(PIECE) {
                let (keys, values): (Vec<&[u8]>, Vec<&[u8]>) = piece.iter().copied().unzip();
                let joined = transaction.query(&self.join, &[&keys, &values]).await?;
                changed.extend(joined.iter().map(|row| (row.get(0), row.get(1))));
            }
            // (the other statements of the service's transaction go here)
            transaction.commit().await?;
            Ok(changed)
        })?;
        self.in_step = true;
        Ok(changed)
    }
}

impl Rows for Table {
    type Error = tokio_postgres::Error;

    fn value(&mut self, key: &[u8]) -> Result<Option<Vec<u8>>> {
        let row = self.runtime.block_on(self.client.query_opt(&self.value, &[&key]))?;
        Ok(row.map(|row| row.get(0)))
    }

    fn rows_in(&mut self, range: Range<'_>, give: &mut Give<'_>) -> Result<()> {
        let mut first = range.first.to_vec();
        loop {
            let rows = match range.end {
                Some(end) => self.runtime.block_on(self.client.query(&self.between, &[&first, &end]))?,
                None => self.runtime.block_on(self.client.query(&self.from, &[&first]))?,
            };
            let more_are_wanted = rows.iter().all(|row| give(row.get(0), row.get(1)));
            match rows.last() {
                Some(last) if more_are_wanted && rows.len() == PIECE => first = [last.get(0), &[0][..]].concat(),
                _ => return Ok(()),
            }
        }
    }

    fn join(&mut self, came: &Came) -> Result<Vec<Row>> {
        self.join_all(&Vec::from_iter(came))
    }
}
