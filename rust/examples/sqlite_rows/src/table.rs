//! A table of SQLite. Of two values of a key the greater stays, so a value begins with its time.
use merkle_search_tree::sync::{Came, Give, Range, Row, Rows};
use rusqlite::{Connection, OptionalExtension, Result};

/// SQLite orders blobs by their bytes, as a tree does.
const TABLE: &str = "CREATE TABLE IF NOT EXISTS rows (key BLOB PRIMARY KEY, value BLOB NOT NULL) WITHOUT ROWID";
const VALUE: &str = "SELECT value FROM rows WHERE key = ?1";
const FROM: &str = "SELECT key, value FROM rows WHERE key >= ?1 ORDER BY key";
const BETWEEN: &str = "SELECT key, value FROM rows WHERE key >= ?1 AND key < ?2 ORDER BY key";
const JOIN: &str = "INSERT INTO rows VALUES (?1, ?2)
    ON CONFLICT (key) DO UPDATE SET value = excluded.value WHERE excluded.value > value";

pub(crate) struct Table {
    connection: Connection,
    /// Whether it is known of each commit how it ended.
    in_step: bool,
}

impl Table {
    pub(crate) fn open(file: &str) -> Result<Self> {
        let connection = Connection::open(file)?;
        connection.execute_batch(TABLE)?;
        Ok(Self { connection, in_step: true })
    }

    pub(crate) fn is_in_step(&self) -> bool {
        self.in_step
    }

    /// Joins rows with those of their keys in one transaction, and returns those that it changed.
    pub(crate) fn join_all(&mut self, rows: &[(&[u8], &[u8])]) -> Result<Vec<Row>> {
        self.in_step = false;
        let transaction = self.connection.transaction()?;
        let mut changed = Vec::new();
        for (key, value) in rows {
            if transaction.prepare_cached(JOIN)?.execute([key, value])? == 1 {
                changed.push((key.to_vec(), value.to_vec()));
            }
        }
        // (the other statements of the service's transaction go here)
        transaction.commit()?;
        self.in_step = true;
        Ok(changed)
    }
}

impl Rows for Table {
    type Error = rusqlite::Error;

    fn value(&mut self, key: &[u8]) -> Result<Option<Vec<u8>>> {
        self.connection.prepare_cached(VALUE)?.query_row([key], |row| row.get(0)).optional()
    }

    fn rows_in(&mut self, range: Range<'_>, give: &mut Give<'_>) -> Result<()> {
        let mut statement = self.connection.prepare_cached(if range.end.is_some() { BETWEEN } else { FROM })?;
        let mut rows = match range.end {
            Some(end) => statement.query([range.first, end])?,
            None => statement.query([range.first])?,
        };
        while let Some(row) = rows.next()? {
            if !give(row.get_ref(0)?.as_blob()?, row.get_ref(1)?.as_blob()?) {
                break;
            }
        }
        Ok(())
    }

    fn join(&mut self, came: &Came) -> Result<Vec<Row>> {
        self.join_all(&Vec::from_iter(came))
    }
}
