//! Rows in a map, and the tree of their digests, which catch up with another program over standard input and output, such as a replica in Python or C,
//! and answer it. The first argument says what they do first, `asks` or `answers`; the peer does the other. The others are the rows, each KEY=VALUE; what
//! there is at the end goes to standard error.
mod over_pipes;

use merkle_search_tree::sync::{catch_up, serve, SyncTree};
use over_pipes::StandardStreams;
use std::{collections::BTreeMap, env, io};

fn main() -> io::Result<()> {
    let mut words = env::args().skip(1);
    let asks_first = words.next().as_deref() == Some("asks");
    let mut rows: BTreeMap<Vec<u8>, Vec<u8>> = BTreeMap::new();
    for row in words {
        let (key, value) = row.split_once('=').unwrap_or((&row, ""));
        rows.insert(key.into(), value.into());
    }
    let mut tree = SyncTree::from_iter(&rows);
    let came = if asks_first {
        let came = catch_up(&mut tree, &mut rows, &mut StandardStreams)?;
        serve(&mut tree, &mut rows, &mut StandardStreams)?;
        came
    } else {
        serve(&mut tree, &mut rows, &mut StandardStreams)?;
        catch_up(&mut tree, &mut rows, &mut StandardStreams)?
    };
    for (key, value) in &rows {
        eprintln!("{}={}", key.escape_ascii(), value.escape_ascii());
    }
    eprintln!("{came} rows came");
    Ok(())
}
