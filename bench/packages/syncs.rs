//! Catch-ups of rows in two files of SQLite, which `syncs` counts and times: `syncs LEFT RIGHT DIFFERING..`. Each line ends with a figure.
use merkle_search_tree::{
    replica::Step,
    sync::{answer, take, Range, Row, Rows, SyncTree},
};
use std::{env, fs, time::Instant};
use table::Table;

// (that of rust/examples/sqlite_rows, which `syncs` copies here)
#[allow(dead_code)]
mod table;

/// How many bytes of memory the program has.
fn memory() -> usize {
    let pages = fs::read_to_string("/proc/self/statm").unwrap_or_default();
    pages.split(' ').nth(1).and_then(|pages| pages.parse().ok()).unwrap_or(0) * 4096
}

/// Makes a call, and says how long it took.
fn timed<T>(what: &str, call: impl FnOnce() -> T) -> T {
    let begin = Instant::now();
    let made = call();
    println!("{what}: seconds {}", begin.elapsed().as_secs_f64());
    made
}

type Kept = (SyncTree, Table);

/// A catch-up and its join: how many rows came, how many questions were asked, their bytes, and those of the replies.
fn caught_up((tree, rows): &mut Kept, (peer, peers_rows): &mut Kept) -> (usize, [usize; 3]) {
    let (mut question, mut cost) = (tree.ask().unwrap(), [0; 3]);
    loop {
        let reply = answer(peer, peers_rows, &question).unwrap();
        cost = [cost[0] + 1, cost[1] + question.len(), cost[2] + reply.len()];
        match take(tree, rows, &reply).unwrap() {
            Step::Ask(next) => question = next,
            Step::Joined(came) => return (came, cost),
        }
    }
}

/// The indices of random rows.
fn drawn(rows: usize, differing: usize, state: &mut u64) -> Vec<usize> {
    let mut chosen = std::collections::BTreeSet::new();
    while chosen.len() < differing {
        *state ^= *state << 13;
        *state ^= *state >> 7;
        *state ^= *state << 17;
        chosen.insert((*state >> 16) as usize % rows);
    }
    chosen.into_iter().collect()
}

fn main() {
    let words: Vec<String> = env::args().skip(1).collect();
    let [mut left, mut right] = [&words[0], &words[1]].map(|file| Table::open(file).unwrap());
    let (before, mut tree) = (memory(), SyncTree::default());
    timed("load", || tree.load(&mut left).unwrap());
    println!("load: bytes a key {}", (memory() - before) as f64 / tree.len() as f64);
    timed("first root hash", || tree.root_hash());
    assert!(timed("verify", || tree.verify(&mut left).unwrap()).is_empty());
    let (mut peer, mut keys, mut state) = (SyncTree::default(), Vec::new(), 1);
    peer.load(&mut right).unwrap();
    right
        .rows_in(Range::ALL, &mut |key, _| {
            keys.push(key.to_vec());
            true
        })
        .unwrap();
    let (mut ours, mut theirs) = ((tree, left), (peer, right));
    for (turn, differing) in words[2..].iter().map(|word| word.parse::<usize>().unwrap()).enumerate() {
        let written: Vec<Row> = drawn(keys.len(), differing, &mut state)
            .into_iter()
            .map(|at| {
                let value = [(turn + 1).to_string().as_bytes(), &[b'0'; 78], &keys[at]].concat();
                (keys[at].clone(), value)
            })
            .collect();
        let written = Vec::from_iter(written.iter().map(|(key, value)| (&key[..], &value[..])));
        theirs.0.extend(theirs.1.join_all(&written).unwrap());
        theirs.0.root_hash();
        let begin = Instant::now();
        let (came, [questions, sent, received]) = caught_up(&mut ours, &mut theirs);
        let seconds = begin.elapsed().as_secs_f64();
        assert!(came == differing && ours.0.root_hash() == theirs.0.root_hash());
        println!("{differing} differ, {questions} questions of {sent} bytes, replies of {received}: seconds {seconds}");
    }
}
