//! Rows that are elsewhere: the tree of their digests, questions about rows, steps without rows at hand, and rows that fail.
mod common;

use common::{
    assert_has, by_steps, count, drawn, draws, every, joined, key_behind, lacked, model, of, Model, Peer, Side, Store,
};
use merkle_search_tree::{
    builder::{Builder, PageFormat},
    digest::siphash::SipHasher,
    register::{Part, Untaken},
    replica::{Fault, Replica},
    sync::{answer, catch_up, serve, Answer, Came, Failed, Give, Next, OutOfOrder, Range, Row, Rows, SyncTree},
    MerkleSearchTree,
};
use std::{
    convert::Infallible,
    error::Error,
    io::{self, ErrorKind},
    num::NonZeroU8,
    os::unix::net::UnixStream,
    thread,
};

#[test]
fn the_tree_is_that_of_the_rows() {
    let (mut draw, mut rows, mut tree) = (draws(3), Model::new(), SyncTree::default());
    assert!(tree.is_empty());
    for _ in 0..3000 {
        let [key, value] =
            [5, 4].map(|below| (0..draw(below)).map(|_| b"\0a\xff"[draw(3) as usize]).collect::<Vec<u8>>());
        if draw(3) == 0 {
            assert_eq!(tree.remove(&key), rows.remove(&key).is_some());
        } else {
            tree.set(&key, &value);
            rows.insert(key.clone(), value);
        }
        assert_eq!((tree.len(), tree.contains_key(&key)), (rows.len(), rows.contains_key(&key)));
    }
    let mut whole = MerkleSearchTree::default();
    whole.extend(rows.clone());
    assert_eq!(tree.root_hash(), *whole.root_hash());
    assert!(rows.keys().all(|key| tree.digest(key) == whole.value_hash(key)));
    assert_eq!(tree.digest("b"), None);
    assert_eq!(SyncTree::default().root_hash(), *MerkleSearchTree::<&str, ()>::default().root_hash());
}

#[test]
fn under_other_settings() {
    let mut draw = draws(5);
    for base in [1, 2, 16, 255].map(|base| NonZeroU8::new(base).unwrap()) {
        for format in [PageFormat::V1, PageFormat::V2] {
            let (hasher, mut rows) = (SipHasher::new(b"a key of SipHash"), drawn(&mut draw, 300));
            let mut tree = SyncTree::with_settings(&hasher, base, format);
            tree.load(&mut rows).unwrap();
            let builder = Builder::default().with_hasher(hasher.clone()).with_level_base(base).with_page_format(format);
            let mut whole: MerkleSearchTree<Vec<u8>, Vec<u8>> = builder.build();
            whole.extend(rows.clone());
            assert_eq!(tree.root_hash(), *whole.root_hash());
            let theirs = drawn(&mut draw, 300);
            let mut peer = Replica::with_settings(&hasher, base, format);
            peer.extend(&theirs);
            let wanted = joined(&rows, &theirs);
            let mut ours = (tree, rows);
            by_steps(&mut ours, |question| Side::answer(&mut peer, question)).unwrap();
            assert_eq!(ours.1, wanted);
        }
    }
}

#[test]
fn a_load_takes_the_place_of_the_tree() {
    let (mut tree, mut rows) = of::<Store>(2);
    tree.set("another", "1");
    let question = tree.ask().unwrap();
    tree.load(&mut rows).unwrap();
    assert_eq!((tree.root_hash(), tree.len()), (Replica::from_iter(&rows).root_hash(), 150));
    assert!(matches!(tree.take(&question), Err(Fault::NotAsking)));
    let before = tree.root_hash();
    let mut failing = Failing { rows: every(3), well: 0, commits: false };
    assert!(matches!(tree.load(&mut failing), Err(Failed::Rows("no database"))));
    assert_eq!(tree.root_hash(), before);
    tree.load(&mut Failing { rows: every(3), well: 1, commits: false }).unwrap();
    assert_eq!(tree.root_hash(), Replica::from_iter(&every(3)).root_hash());
}

/// Rows that count how many of them are read.
struct Counting {
    rows: Model,
    read: usize,
}

impl Rows for Counting {
    type Error = Infallible;

    fn value(&mut self, key: &[u8]) -> Result<Option<Vec<u8>>, Infallible> {
        self.read += 1;
        self.rows.value(key)
    }

    fn rows_in(&mut self, range: Range<'_>, give: &mut Give<'_>) -> Result<(), Infallible> {
        let read = &mut self.read;
        self.rows.rows_in(range, &mut |key, value| {
            *read += 1;
            give(key, value)
        })
    }

    fn join(&mut self, came: &Came) -> Result<Vec<Row>, Infallible> {
        self.rows.join(came)
    }
}

#[test]
fn replies_end_and_no_more_rows_are_read_than_they_take() {
    let all: Model = (0..400_u32).map(|i| (i.to_be_bytes().to_vec(), vec![7; 100_000])).collect();
    let half: Model = all.iter().step_by(2).map(|(key, _)| (key.clone(), vec![3; 50_000])).collect();
    let others: Model = all.iter().skip(1).step_by(2).map(|(key, value)| (key.clone(), value.clone())).collect();
    // All rows are asked for in one range, and then those of 200 keys, whose values are 20 MB.
    for (ours, replies) in [(Model::new(), 4), (joined(&half, &others), 4)] {
        let mut rows = Counting { rows: all.clone(), read: 0 };
        let mut tree = SyncTree::from_iter(&all);
        let mut replica = Replica::from_iter(&ours);
        let (mut here, mut there) = UnixStream::pair().unwrap();
        let served = &mut rows;
        let (asked, came) = thread::scope(|scope| {
            let peer = scope.spawn(move || serve(&mut tree, served, &mut there).unwrap());
            let came = replica.catch_up(&mut here).unwrap();
            (peer.join().unwrap(), came)
        });
        assert_eq!((came, model(&replica)), (lacked(&ours, &all), all.clone()));
        assert!(
            asked >= replies && rows.read <= came + 2 * asked,
            "{asked} questions, {} rows read, {came} came",
            rows.read
        );
    }
}

type Gap = [Option<Vec<u8>>; 2];

fn asks_for_keys(keys: &[Vec<u8>]) -> Vec<u8> {
    let mut last = Vec::new();
    let keys_behind = keys.iter().flat_map(|key| key_behind(&mut last, key)).collect();
    [vec![1, 4], count(keys.len()), keys_behind].concat()
}

fn asks_for_gaps(gaps: &[Gap]) -> Vec<u8> {
    let mut last = Vec::new();
    let mut bound = |key: &Option<Vec<u8>>| match key {
        Some(key) => [vec![1], key_behind(&mut last, key)].concat(),
        None => vec![0],
    };
    let bounds = gaps.iter().flatten().flat_map(&mut bound).collect();
    [vec![1, 5], count(gaps.len()), bounds].concat()
}

fn cut<'a>(bytes: &mut &'a [u8], len: usize) -> &'a [u8] {
    let (front, rest) = bytes.split_at(len);
    *bytes = rest;
    front
}

fn read_count(bytes: &mut &[u8]) -> usize {
    let byte = cut(bytes, 1)[0] as usize;
    if byte < 128 {
        byte
    } else {
        byte - 128 + (read_count(bytes) << 7)
    }
}

fn read_string(bytes: &mut &[u8]) -> Vec<u8> {
    let len = read_count(bytes);
    cut(bytes, len).to_vec()
}

fn read_key(last: &mut Vec<u8>, bytes: &mut &[u8]) -> Vec<u8> {
    let (kept, more) = match cut(bytes, 1)[0] as usize {
        240 => (read_count(bytes), read_count(bytes)),
        front => (front / 16, front % 16),
    };
    let whole = [&last[..kept], cut(bytes, more)].concat();
    *last = whole[..whole.len().min(255)].to_vec();
    read_string(&mut &whole[..])
}

fn is_in(gap: &Gap, key: &[u8]) -> bool {
    gap[0].as_ref().is_none_or(|after| &after[..] < key) && gap[1].as_ref().is_none_or(|before| key < &before[..])
}

/// Checks the values of a reply, which are those of the first keys, and says of how many.
fn check_values(mut reply: &[u8], keys: &[Vec<u8>], rows: &Model) -> usize {
    assert_eq!(cut(&mut reply, 2), [1, 132]);
    let mut told = 0;
    while !reply.is_empty() {
        let value = (cut(&mut reply, 1)[0] == 1).then(|| read_string(&mut reply));
        assert_eq!(value.as_ref(), rows.get(&keys[told]));
        told += 1;
    }
    told
}

/// Checks the parts of a reply, which are those of the first gaps, and says of how many. Of the last gap it may have the first rows alone.
fn check_parts(mut reply: &[u8], gaps: &[Gap], rows: &Model) -> usize {
    assert_eq!(cut(&mut reply, 2), [1, 133]);
    let mut told = 0;
    while !reply.is_empty() {
        let gap = &gaps[told];
        let mut last = gap[0].as_ref().map_or_else(Vec::new, |after| [&count(after.len())[..], after].concat());
        last.truncate(255);
        let part: Vec<_> =
            (0..read_count(&mut reply)).map(|_| (read_key(&mut last, &mut reply), read_string(&mut reply))).collect();
        let wanted: Vec<_> =
            rows.iter().filter(|(key, _)| is_in(gap, key)).map(|(key, value)| (key.clone(), value.clone())).collect();
        if cut(&mut reply, 1) == [1] {
            assert_eq!(part, wanted);
        } else {
            assert!(!part.is_empty() && part.len() < wanted.len() && wanted.starts_with(&part) && reply.is_empty());
        }
        told += 1;
    }
    told
}

/// Rows whose keys share much, little or nothing, are short and long, and have short and long values.
fn shared_rows(draw: &mut impl FnMut(u64) -> u64) -> Model {
    let front = vec![b'f'; [0, 1, 30, 130, 300][draw(5) as usize]];
    let longest = [1, 3, 200][draw(3) as usize];
    (0..draw(60))
        .map(|_| {
            let own = (0..draw(4)).map(|_| b"\0abz"[draw(4) as usize]).collect::<Vec<_>>();
            ([&front[..], &own].concat(), vec![b'v'; draw(longest) as usize])
        })
        .collect()
}

/// A key that is there or near one that is.
fn near(rows: &Model, draw: &mut impl FnMut(u64) -> u64) -> Vec<u8> {
    let at = draw(rows.len() as u64 + 1) as usize;
    let mut key = rows.keys().nth(at).cloned().unwrap_or_default();
    match draw(4) {
        0 => key.push(draw(256) as u8),
        1 => key.truncate(key.len().saturating_sub(1)),
        _ => {}
    }
    key
}

#[test]
fn questions_in_any_order_and_replies_that_are_cut() {
    let (mut draw, mut cut_short) = (draws(13), [0; 2]);
    for _ in 0..2000 {
        let rows = shared_rows(&mut draw);
        let ((mut tree, mut table), mut replica) = (Store::new(&rows), Replica::from_iter(&rows));
        let keys: Vec<_> = (0..draw(8)).map(|_| near(&rows, &mut draw)).collect();
        let gaps: Vec<_> =
            (0..draw(6)).map(|_| [(); 2].map(|()| (draw(4) > 0).then(|| near(&rows, &mut draw)))).collect();
        let (for_keys, for_gaps) = (asks_for_keys(&keys), asks_for_gaps(&gaps));
        for question in [&for_keys, &for_gaps] {
            let reply = answer(&mut tree, &mut table, question).unwrap();
            assert_eq!(reply, replica.answer(question).unwrap(), "{question:?}");
        }
        for bytes in [0, 1, 20, 100, 1000].map(|most| draw(most + 1) as usize) {
            let told = check_values(&by_hand(&mut tree, &table, &for_keys, bytes), &keys, &rows);
            assert!(told > 0 || keys.is_empty());
            cut_short[0] += usize::from(told < keys.len());
            let told = check_parts(&by_hand(&mut tree, &table, &for_gaps, bytes), &gaps, &rows);
            assert!(told > 0 || gaps.is_empty());
            cut_short[1] += usize::from(told < gaps.len());
        }
    }
    assert!(cut_short.iter().all(|replies| *replies > 500), "{cut_short:?}");
}

/// The reply to a question, by about so many bytes of rows.
fn by_hand(tree: &mut SyncTree, rows: &Model, question: &[u8], bytes: usize) -> Vec<u8> {
    let found = match tree.answer(question).unwrap() {
        Answer::Reply(reply) => return reply,
        Answer::NeedsKeys(keys) => {
            let mut found = keys.found_within(bytes);
            keys.iter().all(|key| found.value(key, rows.get(key).map(Vec::as_slice)));
            found
        }
        Answer::NeedsRanges(ranges) => {
            let mut found = ranges.found_within(bytes);
            ranges.iter().all(|range| rows.range::<[u8], _>(range).all(|(key, value)| found.row(range, key, value)));
            found
        }
    };
    tree.answer_with(question, found).unwrap()
}

#[test]
fn steps_without_rows_at_hand() {
    let mut draw = draws(17);
    for size in [0, 1, 5, 60, 400].repeat(10) {
        let (ours, theirs) = (drawn(&mut draw, size), drawn(&mut draw, size));
        let (mut tree, mut peer, bytes) =
            (SyncTree::from_iter(&ours), SyncTree::from_iter(&theirs), draw(500) as usize);
        let mut question = tree.ask().unwrap();
        let came = loop {
            let before = tree.root_hash();
            match tree.take(&by_hand(&mut peer, &theirs, &question, bytes)).unwrap() {
                Next::Ask(next) => question = next,
                Next::Came(came) => {
                    assert_eq!(tree.root_hash(), before);
                    break came;
                }
            }
        };
        let wanted = theirs.iter().filter(|(key, value)| ours.get(*key) != Some(value));
        assert!(came.iter().eq(wanted.map(|(key, value)| (&key[..], &value[..]))));
        assert!(matches!(tree.take(&[]), Err(Fault::NotAsking)));
    }
}

#[test]
fn rows_that_were_found_for_another_question() {
    let (mut tree, rows) = of::<Store>(2);
    let (for_all, question) = (asks_for_gaps(&[[None, None]]), of::<Store>(3).ask().unwrap());
    assert!(matches!(tree.answer(&question), Ok(Answer::Reply(_))));
    let mut found = |bytes: usize| {
        let Answer::NeedsRanges(ranges) = tree.answer(&for_all).unwrap() else { panic!() };
        let (mut found, range) = (ranges.found_within(bytes), ranges.iter().next().unwrap());
        rows.iter().all(|(key, value)| found.row(range, key, value));
        found
    };
    let [none_needed, all, few, no_question] = [1, 1 << 20, 1, 1].map(&mut found);
    assert_eq!(tree.answer_with(&question, none_needed), Err(Fault::OtherRows));
    assert_eq!(tree.answer_with(b"no question", no_question), Err(Fault::Malformed));
    let for_few = asks_for_gaps(&[[Some(b"5".to_vec()), None]]);
    assert_eq!(tree.answer_with(&for_few, few), Err(Fault::OtherRows));
    assert_eq!(check_parts(&tree.answer_with(&for_few, all).unwrap(), &[[Some(b"5".to_vec()), None]], &rows), 1);
}

/// Rows of which a call fails, once so many were well. A join may fail after its commit.
struct Failing {
    rows: Model,
    well: usize,
    commits: bool,
}

impl Failing {
    fn call<T>(&mut self, made: Result<T, Infallible>) -> Result<T, &'static str> {
        self.well = self.well.checked_sub(1).ok_or("no database")?;
        Ok(made.unwrap())
    }
}

impl Rows for Failing {
    type Error = &'static str;

    fn value(&mut self, key: &[u8]) -> Result<Option<Vec<u8>>, &'static str> {
        let value = self.rows.value(key);
        self.call(value)
    }

    fn rows_in(&mut self, range: Range<'_>, give: &mut Give<'_>) -> Result<(), &'static str> {
        let given = self.rows.rows_in(range, give);
        self.call(given)
    }

    fn join(&mut self, came: &Came) -> Result<Vec<Row>, &'static str> {
        let mut rows = self.rows.clone();
        let joined = rows.join(came);
        if self.commits || self.well > 0 {
            self.rows = rows;
        }
        self.call(joined)
    }
}

#[test]
fn a_join_that_fails() {
    for commits in [false, true] {
        let (mut tree, rows) = of::<Store>(2);
        let (before, mut peer) = (tree.root_hash(), of::<Store>(3));
        let mut rows = Failing { rows, well: 0, commits };
        let mut caught_up = |tree: &mut SyncTree, rows: &mut Failing| {
            let ((mut ours, mut theirs), peer) = (UnixStream::pair().unwrap(), &mut peer);
            thread::scope(|scope| {
                scope.spawn(move || peer.serve(&mut theirs).unwrap());
                let caught_up = catch_up(tree, rows, &mut ours);
                drop(ours);
                caught_up
            })
        };
        assert!(matches!(caught_up(&mut tree, &mut rows), Err(Failed::Rows("no database"))));
        assert!(matches!(tree.take(&[]), Err(Fault::NotAsking)));
        assert_eq!(tree.root_hash(), before);
        let wanted = joined(&every(2), &every(3));
        if commits {
            // It isn't known that the commit was done: the tree is loaded anew, and has the rows.
            assert_eq!(rows.rows, wanted);
            rows.well = 1;
            tree.load(&mut rows).unwrap();
        } else {
            assert_eq!(rows.rows, every(2));
        }
        rows.well = 1;
        assert_eq!(caught_up(&mut tree, &mut rows).unwrap(), if commits { 0 } else { 50 });
        assert_eq!((&rows.rows, tree.root_hash()), (&wanted, Replica::from_iter(&wanted).root_hash()));
    }
}

#[test]
fn look_ups_that_fail() {
    let (long, mut ends) = (|rows: Model| -> Model { rows.into_keys().map(|key| (key, vec![1; 40])).collect() }, 0);
    for well in 0.. {
        let mut rows = Failing { rows: long(every(2)), well, commits: false };
        let (mut tree, mut replica) = (SyncTree::from_iter(&rows.rows), Replica::from_iter(&long(every(7))));
        let (mut ours, mut theirs) = UnixStream::pair().unwrap();
        let (came, (served, mut side)) = thread::scope(|scope| {
            let peer = scope.spawn(move || {
                let served = serve(&mut tree, &mut rows, &mut theirs);
                drop(theirs);
                (served, (tree, rows.rows))
            });
            (replica.catch_up(&mut ours), peer.join().unwrap())
        });
        assert_has(&mut side, &long(every(2)));
        match served {
            Ok(_) => {
                assert!(came.unwrap() > 0 && ends > 0);
                return;
            }
            Err(failed) => {
                assert!(matches!(failed, Failed::Rows("no database")));
                assert_eq!(came.unwrap_err().kind(), ErrorKind::UnexpectedEof);
                assert_eq!(model(&replica), long(every(7)));
                ends += 1;
            }
        }
    }
}

/// Rows of which a scan gives these keys, whatever it is asked for.
struct Disordered([&'static str; 2]);

impl Rows for Disordered {
    type Error = Infallible;

    fn value(&mut self, _key: &[u8]) -> Result<Option<Vec<u8>>, Infallible> {
        Ok(None)
    }

    fn rows_in(&mut self, _range: Range<'_>, give: &mut Give<'_>) -> Result<(), Infallible> {
        for key in self.0 {
            give(key.as_bytes(), b"1");
        }
        Ok(())
    }

    fn join(&mut self, _came: &Came) -> Result<Vec<Row>, Infallible> {
        Ok(Vec::new())
    }
}

/// The keys that a call found out of order, and what it says.
fn disorder<T, E>(made: Result<T, Failed<E>>) -> (OutOfOrder, String) {
    match made {
        Err(Failed::NotAscending(out)) => (out.clone(), out.to_string()),
        _ => panic!("the rows are in order"),
    }
}

#[test]
fn rows_that_dont_ascend_or_lie_elsewhere() {
    let question = asks_for_gaps(&[[None, Some(b"c".to_vec())]]);
    let below_c = Range { first: b"", end: Some(b"c") };
    for (keys, before, says) in [
        (["b", "a"], Some("b"), ["\"a\" after \"b\"", "COLLATE"]),
        (["b", "b"], Some("b"), ["\"b\" twice", "a scan goes on"]),
        (["a", "d"], None, ["\"d\", which isn't in the range", "COLLATE"]),
    ] {
        let (mut tree, mut rows) = (SyncTree::from_iter(&every(2)), Disordered(keys));
        let root = tree.root_hash();
        let mut found = vec![disorder(answer(&mut tree, &mut rows, &question))];
        let mut peer = Peer::saying(&[&question]);
        found.push(disorder(serve(&mut tree, &mut rows, &mut peer)));
        assert!(peer.heard.is_empty());
        if before.is_some() {
            found.push(disorder(tree.load(&mut rows)));
            found.push(disorder(tree.verify(&mut rows)));
        }
        assert_eq!((tree.root_hash(), tree.len()), (root, 150));
        found.push(disorder(tree.rescan(&mut rows, below_c)));
        for (out, text) in found {
            let before = before.map(|key| key.as_bytes().to_vec());
            assert_eq!(out, OutOfOrder { key: keys[1].into(), before });
            assert!(says.iter().all(|part| text.contains(part)), "{text}");
        }
    }
}

#[test]
fn long_keys_in_errors() {
    let out = OutOfOrder { key: vec![b'k'; 5000], before: Some(b"\xff".to_vec()) };
    let text = out.to_string();
    assert!(text.contains("k\".. after \"\\xff\"") && text.len() < 300, "{text}");
}

#[test]
fn questions_that_are_altered() {
    let (mut draw, mut side) = (draws(11), of::<Store>(3));
    let questions = [asks_for_keys(&[b"3".to_vec(), b"150".to_vec()]), asks_for_gaps(&[[None, Some(b"20".to_vec())]])];
    for at in 0..6000 {
        let mut question = questions[at % 2].clone();
        let byte = draw(question.len() as u64) as usize;
        question[byte] = draw(256) as u8;
        // What rows it has is what a replica says.
        if let (Ok(reply), [4 | 5, ..]) = (side.answer(&question), &question[1..]) {
            assert_eq!(reply, Replica::from_iter(&every(3)).answer(&question).unwrap());
        }
    }
    assert_has(&mut side, &every(3));
}

#[test]
fn failures_are_errors() {
    let failed: Failed<&str> = Fault::Malformed.into();
    assert_eq!(failed.to_string(), Fault::Malformed.to_string());
    assert_eq!(io::Error::from(failed).kind(), ErrorKind::InvalidData);
    let failed: Failed<&str> = io::Error::from(ErrorKind::BrokenPipe).into();
    assert_eq!(io::Error::from(failed).kind(), ErrorKind::BrokenPipe);
    let failed = Failed::Rows("no database");
    assert_eq!(failed.to_string(), "no database");
    assert_eq!(io::Error::from(failed).to_string(), "no database");
    let out = OutOfOrder { key: b"a".to_vec(), before: Some(b"b".to_vec()) };
    let untaken = Untaken::TooLong { key: "a".into(), part: Part::Writer };
    for (failed, kind) in
        [(Failed::<io::Error>::NotAscending(out), ErrorKind::Other), (Failed::Untaken(untaken), ErrorKind::InvalidData)]
    {
        let text = failed.to_string();
        assert!(failed.source().is_none() && !text.is_empty());
        let error = io::Error::from(failed);
        assert_eq!((error.kind(), error.to_string()), (kind, text));
    }
    let failed: Box<dyn Error + Send + Sync> = Box::new(Failed::Rows(io::Error::other("no disk")));
    assert_eq!(failed.to_string(), "no disk");
}
