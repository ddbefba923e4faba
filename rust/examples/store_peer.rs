//! Rows in a map that sync with a store of `mst` over pipes.
//!
//!     store_peer HASH_KEY KEY=VALUE.. -- ssh host mst serve --both FILE    pulls from the store FILE, and then answers it
//!     store_peer HASH_KEY KEY=VALUE..                                      answers `mst pull` on standard input and output
//!
//! HASH_KEY is what `ssh host mst hash-key FILE` prints. What there is at the end goes to standard error.
use merkle_search_tree::register::{catch_up, hasher_of, now, serve, Pipes, Register, RegisterTree};
use std::{
    collections::BTreeMap,
    env,
    io::{self, stdin, stdout},
    process::{Command, Stdio},
};

fn main() -> io::Result<()> {
    let mut words = env::args().skip(1);
    let hasher = words.next().and_then(|word| hasher_of(&word)).ok_or(io::ErrorKind::InvalidInput)?;
    let mut rows = BTreeMap::new();
    for row in words.by_ref().take_while(|word| word != "--") {
        let (key, value) = row.split_once('=').unwrap_or((&row, ""));
        let write = Register::over(rows.get(key), now(), "example", Some(value.into()));
        rows.insert(key.to_owned(), write);
    }
    let mut tree = RegisterTree::new(&hasher);
    tree.load(&mut rows)?;
    if let Some(program) = words.next() {
        let mut store = Command::new(program).args(words).stdin(Stdio::piped()).stdout(Stdio::piped()).spawn()?;
        let mut pipes = Pipes(store.stdout.take().unwrap(), store.stdin.take().unwrap());
        catch_up(&mut tree, &mut rows, &mut pipes)?;
        serve(&mut tree, &mut rows, &mut pipes)?;
        drop(pipes);
        store.wait()?;
    } else {
        serve(&mut tree, &mut rows, &mut Pipes(stdin(), stdout()))?;
    }
    for (key, register) in &rows {
        match &register.value {
            Some(value) => eprintln!("{}={}", key.escape_debug(), value.escape_ascii()),
            None => eprintln!("{} is removed", key.escape_debug()),
        }
    }
    Ok(())
}
