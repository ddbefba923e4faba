//! A replica that catches up with another program over standard input and output, such as one in Python or C, and answers it. The first argument says
//! what it does first, `asks` or `answers`; the peer does the other. The others are its rows, each KEY=VALUE; what it has at the end goes to standard
//! error.
mod over_pipes;

use merkle_search_tree::replica::Replica;
use over_pipes::StandardStreams;
use std::{env, io};

fn main() -> io::Result<()> {
    let mut words = env::args().skip(1);
    let asks_first = words.next().as_deref() == Some("asks");
    let mut replica = Replica::default();
    for row in words {
        let (key, value) = row.split_once('=').unwrap_or((&row, ""));
        replica.put(key, value);
    }
    let came = if asks_first {
        let came = replica.catch_up(&mut StandardStreams)?;
        replica.serve(&mut StandardStreams)?;
        came
    } else {
        replica.serve(&mut StandardStreams)?;
        replica.catch_up(&mut StandardStreams)?
    };
    for (key, value) in &replica.rows() {
        eprintln!("{}={}", key.escape_ascii(), value.escape_ascii());
    }
    eprintln!("{came} rows came");
    Ok(())
}
