//! Times the calls of the crate merkle-search-tree on N keys, in nanoseconds a key as the best of several rounds, and the memory of a tree in
//! bytes a key. The package `mst` has the same names: which of the two is timed, Cargo.toml says.
use merkle_search_tree::{diff::diff, MerkleSearchTree};
use std::{env, fs, hint::black_box, time::Instant};

type Tree = MerkleSearchTree<String, u64>;

/// A letter and the 16 hex digits of the states of xorshift64, as those of bench/README.md.
fn keys(mut state: u64) -> impl Iterator<Item = String> {
    std::iter::repeat_with(move || {
        state ^= state << 13;
        state ^= state >> 7;
        state ^= state << 17;
        format!("k{state:016x}")
    })
}

const LOCAL: u64 = 88172645463325252;
const PEER: u64 = 362436069;

/// The hashed tree of so many keys, of which each tenth may have another value.
fn tree(size: usize, seed: u64, tenth: u64) -> Tree {
    let mut tree = Tree::default();
    for (at, key) in keys(seed).take(size).enumerate() {
        tree.upsert(key, if at % 10 == 0 { &tenth } else { &1 });
    }
    tree.root_hash();
    tree
}

/// How many bytes of memory the program has.
fn memory() -> usize {
    let pages = fs::read_to_string("/proc/self/statm").unwrap_or_default();
    pages.split(' ').nth(1).and_then(|pages| pages.parse().ok()).unwrap_or(0) * 4096
}

fn main() {
    let size: usize = env::args().nth(1).and_then(|size| size.parse().ok()).expect("the argument is how many keys");
    let before = memory();
    let held = tree(size, LOCAL, 1);
    let held_bytes = memory() - before;
    let (peer, third) = (tree(size, PEER, 1), tree(size, LOCAL, 2));
    let mut best = [f64::MAX; 7];
    for _ in 0..(400_000 / size).clamp(3, 200) {
        let own: Vec<_> = keys(LOCAL).take(size).collect();
        let mut at = 0;
        let mut time = |call: &mut dyn FnMut()| {
            let begin = Instant::now();
            call();
            best[at] = best[at].min(begin.elapsed().as_nanos() as f64 / size as f64);
            at += 1;
        };
        let (mut made, mut rows) = (Tree::default(), own.clone().into_iter());
        time(&mut || rows.by_ref().for_each(|key| made.upsert(key, &1)));
        time(&mut || _ = black_box(made.root_hash()));
        time(&mut || _ = black_box(made.serialise_page_ranges()));
        let mut rows = own.into_iter();
        time(&mut || rows.by_ref().for_each(|key| made.upsert(key, &3)));
        for other in [&held, &peer, &third] {
            let (ours, theirs) = (held.serialise_page_ranges().unwrap(), other.serialise_page_ranges().unwrap());
            let mut both = Some((ours, theirs));
            time(&mut || _ = black_box(both.take().map(|(ours, theirs)| diff(ours, theirs).len())));
        }
    }
    let times: Vec<_> = best.iter().map(|best| format!("{best:.1}")).collect();
    println!("{} {:.0}", times.join(" "), held_bytes as f64 / size as f64);
}
