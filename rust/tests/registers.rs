//! Registers and trees of them: bytes, order and digests, catch-ups of such rows, rows that fail, and peers that don't keep to the messages.
//! tests/store_peers has the store `mst` as the peer.
mod common;

use common::{draws, framed, key_behind, Peer};
use merkle_search_tree::{
    builder::{Builder, PageFormat},
    digest::siphash::SipHasher,
    register::{
        answer, catch_up, catch_up_by, catch_up_within, entries_of, hasher_of, latest, now, serve, serve_by, take,
        Entry, Give, Part, Range, Register, RegisterTree, Registers, Untaken, MOST_TEXT,
    },
    replica::{Fault, Limits, Step, REFUSAL},
    sync::{Answer, Failed, Next, OutOfOrder},
    Malformed, MerkleSearchTree,
};
use std::{
    collections::BTreeMap,
    convert::Infallible,
    io::{self, ErrorKind},
    ops::RangeBounds,
    os::unix::net::UnixStream,
    str,
    sync::Mutex,
    thread,
};

type Table = BTreeMap<String, Register>;
type Side = (RegisterTree, Table);

const HASH_KEY: &str = "000102030405060708090a0b0c0d0e0f";

/// The session of two stores in docs/WIRE.md.
const ASKED: [&str; 2] = ["01 01  10 02 10 01 03616e74 10 49ce3b3395d7edeaa4a461d5489ea154", "01 02  10 01 00 00"];
const REPLIES: [&str; 2] = [
    "01 81  03 01 bbefd75681059d8a56c3b0cdc2b67183",
    "01 82  00 03  04 03616e74  80d8bdf3ac33 05616c696365 01 0131  13 626565 e0acc1f3ac33 03626f62 00
        13 636f77 e0acc1f3ac33 03626f62 01 0136",
];

fn hex(text: &str) -> Vec<u8> {
    let digits = Vec::from_iter(text.chars().filter_map(|digit| digit.to_digit(16)));
    digits.chunks(2).map(|pair| (pair[0] * 16 + pair[1]) as u8).collect()
}

fn register(time: u64, writer: &str, value: Option<&[u8]>) -> Register {
    Register { time, writer: writer.into(), value: value.map(<[u8]>::to_vec) }
}

/// A register, its bytes in a message, those that are hashed, and its digest under the key above.
type Vector = (Register, Vec<u8>, Vec<u8>, Vec<u8>);

/// By docs/WIRE.md, and by the SipHash of tests/wire_reader.
fn vectors() -> Vec<Vector> {
    let (alice, bob) = (1764400000000, 1764400060000);
    [
        (
            register(0, "", Some(b"")),
            "00 00 01 00",
            "0000000000000000 0000000000000000 01",
            "491ef98060b1f8a2c3181c26a7ed8dd9",
        ),
        (
            register(alice, "alice", Some(b"1")),
            "80d8bdf3ac33 05616c696365 01 0131",
            "006c6fce9a010000 0500000000000000 616c696365 01 31",
            "81602362bc1a251aaa7ed16641b137df",
        ),
        (
            register(bob, "bob", None),
            "e0acc1f3ac33 03626f62 00",
            "605670ce9a010000 0300000000000000 626f62 00",
            "21b9eddfdefb6a10d8863645cd42e8de",
        ),
        (
            register(bob, "bob", Some(b"6")),
            "e0acc1f3ac33 03626f62 01 0136",
            "605670ce9a010000 0300000000000000 626f62 01 36",
            "c8da1f3cbac33fbfd06724eb585b9124",
        ),
        (
            register(u64::MAX, "\u{e9}", Some(b"\xff\0")),
            "ffffffffffffffffff01 02c3a9 02 02ff00",
            "ffffffffffffffff 0200000000000000 c3a9 02 ff00",
            "bf02c79b1d1e1c3b2720496456a7d532",
        ),
    ]
    .map(|(register, message, hashed, digest)| (register, hex(message), hex(hashed), hex(digest)))
    .into()
}

fn ours() -> Table {
    let bee = register(1764400000000, "alice", Some(b"2"));
    BTreeMap::from([("ant".into(), vectors()[1].0.clone()), ("bee".into(), bee)])
}

fn theirs() -> Table {
    ["ant", "bee", "cow"].into_iter().zip(&vectors()[1..]).map(|(key, vector)| (key.into(), vector.0.clone())).collect()
}

fn side_under(hash_key: &str, rows: &Table) -> Side {
    let (mut tree, mut rows) = (RegisterTree::new(&hasher_of(hash_key).unwrap()), rows.clone());
    tree.load(&mut rows).unwrap();
    (tree, rows)
}

fn side(rows: &Table) -> Side {
    side_under(HASH_KEY, rows)
}

/// A catch-up without a connection, that takes any time.
fn by_steps((tree, rows): &mut Side, mut reply_to: impl FnMut(&[u8]) -> Vec<u8>) -> io::Result<usize> {
    let mut question = tree.ask()?;
    loop {
        match take(tree, rows, u64::MAX, &reply_to(&question)).map_err(io::Error::from)? {
            Step::Ask(next) => question = next,
            Step::Joined(came) => return Ok(came),
        }
    }
}

fn reply_of((tree, rows): &mut Side, question: &[u8]) -> Vec<u8> {
    answer(tree, rows, question).map_err(io::Error::from).unwrap()
}

/// The rows that both come to hold, by maps alone.
fn joined(left: &Table, right: &Table) -> Table {
    let mut rows = left.clone();
    for (key, register) in right {
        let held = rows.entry(key.clone()).or_insert_with(|| register.clone());
        *held = held.clone().max(register.clone());
    }
    rows
}

/// Random registers: texts, other bytes and removals, at equal times and by equal writers, too.
fn drawn(draw: &mut impl FnMut(u64) -> u64) -> Table {
    let (rows, longest) = ([0, 3, 600][draw(3) as usize], [3, 60][draw(2) as usize]);
    (0..rows)
        .map(|_| {
            let value = match draw(4) {
                0 => None,
                1 => Some(vec![255; draw(longest) as usize]),
                _ => Some(draw(9).to_string().repeat(draw(longest) as usize).into_bytes()),
            };
            let writer = ["alice", "bob", "\u{e9}", ""][draw(4) as usize].to_owned();
            (format!("k\u{e9}y{}", draw(400)), Register { time: 1764400000000 + draw(3), writer, value })
        })
        .collect()
}

#[test]
fn bytes_and_digests() {
    let hasher = hasher_of(HASH_KEY).unwrap();
    for (register, message, hashed, digest) in vectors() {
        assert_eq!(register.to_bytes(), message);
        assert_eq!(Register::from_bytes(&message), Ok(register.clone()));
        assert_eq!(register.hashed_bytes(), hashed);
        assert_eq!(register.digest(&hasher).as_bytes()[..], digest);
        for cut in 0..message.len() {
            assert_eq!(Register::from_bytes(&message[..cut]), Err(Malformed));
        }
        assert_eq!(Register::from_bytes(&[&message[..], &[0]].concat()), Err(Malformed));
    }
    for wrong in [
        "8000 00 00",
        "ffffffffffffffffff02 00 00",
        "80808080808080808080 00 00",
        "00 8000 00",
        "00 01ff 00",
        "00 00 03 00",
        "00 00 02 0131",
        "00 00 01 01ff",
        "00 00 01 8000",
    ] {
        assert_eq!(Register::from_bytes(&hex(wrong)), Err(Malformed), "{wrong}");
    }
}

#[test]
fn hash_keys() {
    let digest = |hasher: &SipHasher| *vectors()[1].0.digest(hasher).as_bytes();
    let [lower, upper, spaced] = [HASH_KEY.into(), HASH_KEY.to_uppercase(), format!(" {HASH_KEY}\n")]
        .map(|text| digest(&hasher_of(&text).unwrap()));
    assert_eq!([lower, lower], [upper, spaced]);
    assert_eq!(lower, digest(&SipHasher::new(&std::array::from_fn(|at| at as u8))));
    for wrong in [
        "",
        &HASH_KEY[1..],
        "000102030405060708090a0b0c0d0e0g",
        "+00102030405060708090a0b0c0d0e0f",
        "é00102030405060708090a0b0c0d0e0",
    ] {
        assert!(hasher_of(wrong).is_none(), "{wrong}");
    }
}

#[test]
fn order() {
    let ascending = [
        register(1, "", None),
        register(1, "a", None),
        register(1, "a", Some(b"")),
        register(1, "a", Some(b"z")),
        register(1, "a", Some("\u{10ffff}".as_bytes())),
        register(1, "a", Some(b"\x80")),
        register(1, "a", Some(b"\xff")),
        register(1, "b", None),
        register(1, "\u{ffff}", None),
        register(1, "\u{10000}", None),
        register(2, "", None),
    ];
    let mut sorted = Vec::from_iter(ascending.iter().rev().cloned());
    sorted.sort();
    assert_eq!(sorted, ascending);
    assert!(ascending.is_sorted_by(|one, other| one < other));
    assert_eq!(ascending[..7].iter().map(Register::kind).collect::<Vec<_>>(), [0, 0, 1, 1, 1, 2, 2]);
}

#[test]
fn writes_over_registers() {
    let write = |held: &Register| Register::over(Some(held), 7, "bob", None).time;
    assert_eq!(Register::over(None, 7, "bob", Some(b"1".to_vec())), register(7, "bob", Some(b"1")));
    assert_eq!([5, 7, 9, u64::MAX].map(|time| write(&register(time, "zoe", Some(b"9")))), [7, 8, 10, u64::MAX]);
    assert!(now() > 1764400000000 && latest() - now() <= 86_400_000 && latest() - now() > 86_000_000);
}

#[test]
fn the_session_of_two_stores() {
    let (mut ours, mut peer) = (side(&ours()), side(&theirs()));
    let mut asked = Vec::new();
    let came = by_steps(&mut ours, |question| {
        asked.push(question.to_vec());
        hex(REPLIES[asked.len() - 1])
    });
    assert_eq!(came.unwrap(), 2);
    assert_eq!(asked, ASKED.map(hex));
    assert_eq!(ours.1, theirs());
    assert_eq!(ours.0.root_hash(), peer.0.root_hash());
    assert_eq!(reply_of(&mut peer, &hex(ASKED[0])), hex(REPLIES[0]));
    assert_eq!(ours.0.digest("bee").unwrap().as_bytes()[..], vectors()[2].3);
    assert_eq!((ours.0.len(), ours.0.is_empty(), ours.0.digest("dog")), (3, false, None));
}

/// Two sides with rows that are drawn, and these.
fn drawn_sides(seed: u64) -> ([Table; 2], [Side; 2]) {
    let mut draw = draws(seed);
    let tables = [drawn(&mut draw), drawn(&mut draw)];
    let sides = [side(&tables[0]), side(&tables[1])];
    (tables, sides)
}

#[test]
fn random_rows_both_ways() {
    for seed in 1..60 {
        let (tables, [mut left, mut right]) = drawn_sides(seed);
        let differing = tables[1].iter().filter(|(key, register)| tables[0].get(*key) != Some(register)).count();
        assert_eq!(by_steps(&mut left, |question| reply_of(&mut right, question)).unwrap(), differing);
        by_steps(&mut right, |question| reply_of(&mut left, question)).unwrap();
        let wanted = joined(&tables[0], &tables[1]);
        assert_eq!((&left.1, &right.1), (&wanted, &wanted));
        let root = side(&wanted).0.root_hash();
        assert_eq!([left.0.root_hash(), right.0.root_hash()], [root; 2]);
        let builder = Builder::default().with_hasher(hasher_of(HASH_KEY).unwrap()).with_page_format(PageFormat::V2);
        let mut tree: MerkleSearchTree<&str, Register> = builder.build();
        wanted.iter().for_each(|(key, register)| tree.upsert(key, register));
        assert_eq!(*tree.root_hash(), root);
    }
}

/// The reply to a question, by calls that read no rows.
fn reply_by_hand((tree, rows): &mut Side, question: &[u8]) -> Result<Vec<u8>, Fault> {
    match tree.answer(question)? {
        Answer::Reply(reply) => Ok(reply),
        Answer::NeedsKeys(keys) => {
            let mut found = keys.found();
            for key in keys.iter() {
                let register = str::from_utf8(key).ok().and_then(|key| rows.get(key)).map(Register::hashed_bytes);
                assert!(found.value(key, register.as_deref()));
            }
            tree.answer_with(question, found)
        }
        Answer::NeedsRanges(ranges) => {
            let mut found = ranges.found();
            for range in ranges.iter() {
                let rows = rows.iter().filter(|(key, _)| range.contains(key.as_bytes()));
                assert!(rows.into_iter().all(|(key, register)| found.row(
                    range,
                    key.as_bytes(),
                    &register.hashed_bytes()
                )));
            }
            tree.answer_with(question, found)
        }
    }
}

#[test]
fn catch_ups_by_calls_that_read_no_rows() {
    for seed in 1..20 {
        let (tables, [mut left, mut right]) = drawn_sides(seed);
        let mut question = left.0.ask().unwrap();
        let came = loop {
            match left.0.take(&reply_by_hand(&mut right, &question).unwrap()).unwrap() {
                Next::Ask(next) => question = next,
                Next::Came(came) => break came,
            }
        };
        for (key, register) in left.1.join(entries_of(&came, latest()).unwrap()).unwrap_or_else(|never| match never {})
        {
            left.0.set(&key, &register).unwrap();
        }
        assert_eq!(left.1, joined(&tables[0], &tables[1]));
        assert_eq!(left.0.root_hash(), side(&left.1).0.root_hash());
    }
    let mut peer = side(&theirs());
    assert_eq!(reply_by_hand(&mut peer, &hex("01 06 01 e4cfb95f 01 02 10 01 00 00")).unwrap(), REFUSAL);
    assert_eq!(reply_by_hand(&mut peer, b"\x01\x09"), Err(Fault::Malformed));
    peer.0.ask().unwrap();
    assert!(matches!(peer.0.take(b"\x01\x82\x03"), Err(Fault::Malformed)));
    assert!(matches!(peer.0.take(&hex(REPLIES[0])), Err(Fault::NotAsking)));
}

#[test]
fn both_ways_over_a_connection() {
    let ((mut tree, mut rows), (mut peers_tree, mut peers_rows)) = (side(&ours()), side(&theirs()));
    let (mut here, mut there) = UnixStream::pair().unwrap();
    let peer = thread::spawn(move || -> io::Result<_> {
        let questions = serve(&mut peers_tree, &mut peers_rows, &mut there)?;
        Ok((questions, catch_up(&mut peers_tree, &mut peers_rows, &mut there)?, peers_rows))
    });
    assert_eq!(catch_up(&mut tree, &mut rows, &mut here).unwrap(), 2);
    assert_eq!(serve(&mut tree, &mut rows, &mut here).unwrap(), 1);
    assert_eq!(peer.join().unwrap().unwrap(), (3, 0, theirs()));
    assert_eq!(rows, theirs());
}

#[test]
fn threads_that_share_a_side() {
    let hub = Mutex::new(side(&ours()));
    let notes = [theirs(), Table::from([("dog".into(), register(7, "zoe", None))]), Table::new()]
        .map(|table| Mutex::new(side(&table)));
    for _ in 0..2 {
        thread::scope(|scope| {
            for note in &notes {
                let (mut here, there) = UnixStream::pair().unwrap();
                scope.spawn(|| serve_by(Limits::default(), &mut { there }, || hub.lock().unwrap()).unwrap());
                scope.spawn(move || {
                    catch_up_by(Limits::default(), latest(), &mut here, || note.lock().unwrap()).unwrap()
                });
            }
        });
        for note in &notes {
            let (mut here, mut there) = UnixStream::pair().unwrap();
            thread::scope(|scope| {
                scope.spawn(|| serve_by(Limits::default(), &mut there, || note.lock().unwrap()).unwrap());
                catch_up_by(Limits::default(), latest(), &mut here, || hub.lock().unwrap()).unwrap();
            });
        }
    }
    let wanted = joined(&theirs(), &notes[1].lock().unwrap().1);
    assert_eq!(hub.lock().unwrap().1, wanted);
    notes.iter().for_each(|note| assert_eq!(note.lock().unwrap().1, wanted));
}

#[test]
fn a_catch_up_in_the_place_of_another() {
    for is_loaded in [false, true] {
        let (hub, mut locked) = (Mutex::new(side(&ours())), 0);
        let caught_up = catch_up_by(Limits::default(), latest(), &mut Peer::saying(&REPLIES.map(hex)), || {
            let mut side = hub.lock().unwrap();
            locked += 1;
            if locked == 3 {
                let (tree, rows) = &mut *side;
                if is_loaded {
                    tree.load(rows).unwrap();
                }
                tree.ask().unwrap();
            }
            side
        });
        assert_eq!(fault_of(&io::Error::from(caught_up.unwrap_err())), Some(&Fault::NotAsking));
        assert_eq!(hub.lock().unwrap().1, ours());
    }
}

#[test]
fn writes() {
    let (mut tree, mut rows) = side(&ours());
    for (key, value) in [("ant", None), ("dog", Some(b"\xff".to_vec()))] {
        let write = Register::over(rows.get(key), now(), "bob", value);
        tree.set(key, &write).unwrap();
        rows.insert(key.into(), write);
    }
    assert_eq!(tree.root_hash(), side(&rows).0.root_hash());
    assert!(tree.remove("ant") && !tree.remove("ant"));
    rows.remove("ant");
    assert_eq!(tree.root_hash(), side(&rows).0.root_hash());
}

#[test]
fn rows_that_another_program_wrote() {
    for seed in 1..60 {
        let ([told, mut rows], [(mut tree, _), (mut anew, _)]) = drawn_sides(seed);
        let (before, both) = (tree.root_hash(), joined(&told, &rows));
        let differing = Vec::from_iter(both.into_keys().filter(|key| told.get(key) != rows.get(key)));
        assert_eq!(tree.verify(&mut rows).unwrap(), differing);
        assert_eq!(tree.root_hash(), before);
        let range = Range { first: "k\u{e9}y1", end: [None, Some("k\u{e9}y3")][seed as usize % 2] };
        let mut wanted = told.clone();
        wanted.retain(|key, _| !range.contains(key.as_str()));
        wanted.extend(rows.range::<str, _>(range).map(|(key, register)| (key.clone(), register.clone())));
        tree.rescan(&mut rows, range).unwrap();
        assert_eq!(tree.root_hash(), side(&wanted).0.root_hash());
        tree.rescan(&mut rows, Range::ALL).unwrap();
        assert_eq!((tree.verify(&mut rows).unwrap(), tree.root_hash()), (Vec::new(), anew.root_hash()));
    }
}

#[test]
fn another_hash_key() {
    let other = "00000000000000000000000000000000";
    for keys in [[HASH_KEY, other], [other, HASH_KEY]] {
        let ((mut tree, mut rows), (mut peers_tree, mut peers_rows)) =
            (side_under(keys[0], &ours()), side_under(keys[1], &theirs()));
        let (mut here, mut there) = UnixStream::pair().unwrap();
        let peer = thread::spawn(move || serve(&mut peers_tree, &mut peers_rows, &mut there).map_err(io::Error::from));
        let error = io::Error::from(catch_up(&mut tree, &mut rows, &mut here).unwrap_err());
        assert_eq!(fault_of(&error), Some(&Fault::Refused));
        assert_eq!(fault_of(&peer.join().unwrap().unwrap_err()), Some(&Fault::OtherSettings));
        assert_eq!(rows, ours());
        let (mut empty, mut peer) = (side_under(keys[0], &Table::new()), side_under(keys[1], &theirs()));
        let question = empty.0.ask().unwrap();
        assert!(answer(&mut peer.0, &mut peer.1, &question).is_err());
    }
}

fn fault_of(error: &io::Error) -> Option<&Fault> {
    error.get_ref().and_then(|inner| inner.downcast_ref())
}

fn untaken_of(error: &io::Error) -> Option<&Untaken> {
    error.get_ref().and_then(|inner| inner.downcast_ref())
}

#[test]
fn a_peer_that_asks_for_a_delta() {
    let (mut tree, mut rows) = side(&theirs());
    let [root, plain] = ASKED.map(hex);
    let by_delta = [&hex("01 06 01 e4cfb95f")[..], &plain].concat();
    assert_eq!(answer(&mut tree, &mut rows, &by_delta).unwrap(), REFUSAL);
    let mut peer = Peer::saying(&[&root[..], &by_delta, &plain, &[]]);
    assert_eq!(serve(&mut tree, &mut rows, &mut peer).unwrap(), 3);
    let last = answer(&mut tree, &mut rows, &plain).unwrap();
    assert_eq!(peer.heard, framed(&[&hex(REPLIES[0])[..], &REFUSAL, &last]));
}

/// Entries that no side takes, whatever its clock says, and why not.
fn untaken() -> [(String, Register, Untaken); 4] {
    let too_long = |key: &str, part| Untaken::TooLong { key: key.into(), part };
    let long = "k".repeat(MOST_TEXT + 1);
    [
        (long.clone(), register(1, "w", None), too_long(&long, Part::Key)),
        ("k".into(), register(1, &"w".repeat(MOST_TEXT + 1), None), too_long("k", Part::Writer)),
        ("k".into(), register(1, "w", Some(&[b'v'; MOST_TEXT + 1])), too_long("k", Part::Value)),
        ("k".into(), register(1 << 63, "w", None), Untaken::TooLate { key: "k".into(), time: 1 << 63 }),
    ]
}

#[test]
fn entries_that_are_not_taken() {
    for (key, register, untaken) in untaken() {
        // A peer with two rows: their number and the root, and both.
        let mut last = Vec::new();
        let rows = [("ant", &ours()["ant"]), (&key[..], &register)]
            .map(|(key, register)| [key_behind(&mut last, key.as_bytes()), register.to_bytes()].concat());
        let replies =
            [hex("01 81 02 01 bbefd75681059d8a56c3b0cdc2b67183"), [hex("01 82 00 02"), rows.concat()].concat()];
        let (mut empty, mut asked) = (side(&Table::new()), 0);
        let error = by_steps(&mut empty, |_| {
            asked += 1;
            replies[asked - 1].clone()
        });
        let error = error.unwrap_err();
        assert_eq!((asked, error.kind(), fault_of(&error)), (2, ErrorKind::InvalidData, None));
        assert!(untaken_of(&error) == Some(&untaken));
        assert!(empty.1.is_empty() && empty.0.is_empty());
    }
}

#[test]
fn rows_that_are_not_taken() {
    for (key, register, untaken) in untaken() {
        let (mut tree, mut rows) = side(&ours());
        let root = tree.root_hash();
        assert!(register.check(&key).as_ref() == Err(&untaken) && tree.set(&key, &register).as_ref() == Err(&untaken));
        let is_named = |failed: Failed<Infallible>| matches!(failed, Failed::Untaken(found) if found == untaken);
        rows.insert(key.clone(), register.clone());
        assert!(is_named(tree.load(&mut rows).unwrap_err()));
        assert!(is_named(tree.verify(&mut rows).unwrap_err()));
        assert!(is_named(tree.rescan(&mut rows, Range::ALL).unwrap_err()));
        assert_eq!(tree.root_hash(), root);
        // Another program wrote it, and the tree isn't told: by its range, and by its key.
        let by_range = hex("01 05 01 00 00");
        let by_key = [hex("01 04 01"), key_behind(&mut Vec::new(), key.as_bytes())].concat();
        for question in [by_range, by_key] {
            assert!(is_named(answer(&mut tree, &mut rows, &question).unwrap_err()));
            let mut peer = Peer::saying(&[question]);
            assert!(is_named(serve(&mut tree, &mut rows, &mut peer).unwrap_err()));
            assert!(peer.heard.is_empty());
        }
        // A join returns it.
        let mut joins = Joining(key, register);
        assert!(is_named(catch_up(&mut tree, &mut joins, &mut Peer::saying(&REPLIES.map(hex))).unwrap_err()));
        assert_eq!(tree.root_hash(), root);
    }
    let (key, writer) = ("k".repeat(MOST_TEXT), "w".repeat(MOST_TEXT));
    let longest = register(u64::MAX >> 1, &writer, Some(&[b'v'; MOST_TEXT]));
    assert_eq!((longest.check(&key), side(&Table::from([(key, longest)])).0.len()), (Ok(()), 1));
}

/// Rows that can't be read, of which each join returns this one.
struct Joining(String, Register);

impl Registers for Joining {
    type Error = Infallible;

    fn register(&mut self, _key: &str) -> Result<Option<Register>, Infallible> {
        Ok(None)
    }

    fn registers_in(&mut self, _range: Range<'_>, _give: &mut Give<'_>) -> Result<(), Infallible> {
        Ok(())
    }

    fn join(&mut self, _came: Vec<Entry>) -> Result<Vec<Entry>, Infallible> {
        Ok(vec![(self.0.clone(), self.1.clone())])
    }
}

#[test]
fn what_untaken_entries_say() {
    let says = [
        "its key has more than 1048576 bytes",
        "its writer has more than 1048576 bytes",
        "its value has more than 1048576 bytes",
        "its time, 9223372036854775808, is too late",
    ];
    for ((_, _, untaken), says) in untaken().into_iter().zip(says) {
        let text = untaken.to_string();
        assert!(text.starts_with("the entry at \"k") && text.ends_with(says) && text.len() < 120, "{text}");
    }
}

/// Rows of which a scan gives these keys.
struct Disordered([&'static str; 2]);

impl Registers for Disordered {
    type Error = Infallible;

    fn register(&mut self, _key: &str) -> Result<Option<Register>, Infallible> {
        Ok(None)
    }

    fn registers_in(&mut self, _range: Range<'_>, give: &mut Give<'_>) -> Result<(), Infallible> {
        for key in self.0 {
            give(key, &ours()["ant"]);
        }
        Ok(())
    }

    fn join(&mut self, _came: Vec<Entry>) -> Result<Vec<Entry>, Infallible> {
        Ok(Vec::new())
    }
}

#[test]
fn rows_that_dont_ascend() {
    for keys in [["b", "B"], ["b", "b"]] {
        let ((mut tree, _), mut rows) = (side(&ours()), Disordered(keys));
        let wanted = OutOfOrder { key: keys[1].into(), before: Some(b"b".to_vec()) };
        let is_named = |failed: Failed<Infallible>| matches!(failed, Failed::NotAscending(out) if out == wanted);
        assert!(is_named(tree.load(&mut rows).unwrap_err()));
        assert!(is_named(tree.verify(&mut rows).unwrap_err()));
        assert!(is_named(side(&Table::new()).0.rescan(&mut rows, Range::ALL).unwrap_err()));
        assert!(is_named(answer(&mut tree, &mut rows, &hex("01 05 01 00 00")).unwrap_err()));
        assert_eq!(tree.root_hash(), side(&ours()).0.root_hash());
    }
}

#[test]
fn entries_that_are_ahead_of_the_clock() {
    for (ahead, is_taken) in [(86_340_000, true), (86_460_000, false)] {
        let dog = register(now() + ahead, "bob", None);
        let mut table = Table::from_iter((0..9).map(|at| (format!("k{at}"), register(at, "bob", None))));
        table.insert("dog".into(), dog.clone());
        let mut peer = side(&table);
        // The root, and all rows.
        let [root, all] = [hex(ASKED[0]), hex("01 05 01 00 00")].map(|question| reply_of(&mut peer, &question));
        let said = || Peer::saying(&[&root, &all]);
        let (mut tree, mut rows) = side(&Table::new());
        assert_eq!(catch_up(&mut tree, &mut rows, &mut said()).is_ok(), is_taken);
        assert_eq!(rows, if is_taken { table } else { Table::new() });
        for (latest, is_taken) in [(dog.time - 1, false), (dog.time, true)] {
            let (mut tree, mut rows) = side(&Table::new());
            assert_eq!(catch_up_within(Limits::default(), latest, &mut tree, &mut rows, &mut said()).is_ok(), is_taken);
        }
    }
}

#[test]
fn keys_that_are_no_texts() {
    for asked in ["01 04 01 02 01ff", "01 05 01 01 02 01ff 00", "01 05 01 00 01 02 01ff"] {
        let (mut tree, mut rows) = side(&theirs());
        let mut peer = Peer::saying(&[hex(asked)]);
        let error = io::Error::from(serve(&mut tree, &mut rows, &mut peer).unwrap_err());
        assert_eq!(fault_of(&error), Some(&Fault::Malformed));
        assert_eq!(peer.heard, framed(&[REFUSAL]));
    }
    for (row, is_text) in [("01 82 00 01 02 01ff 00 00 00", false), ("01 82 00 01 02 017f 00 00 00", true)] {
        let replies = ["01 81 01 01 bbefd75681059d8a56c3b0cdc2b67183", row].map(hex);
        let (mut ours, mut asked) = (side(&Table::new()), 0);
        let came = by_steps(&mut ours, |_| {
            asked += 1;
            replies[asked - 1].clone()
        });
        assert_eq!((asked, came.is_ok(), ours.1.len()), (2, is_text, usize::from(is_text)));
        assert!(came.map_or_else(|error| fault_of(&error) == Some(&Fault::Malformed), |came| came == 1));
    }
}

#[test]
fn replies_that_are_cut_or_altered() {
    let whole = hex(REPLIES[1]);
    let mut replies: Vec<Vec<u8>> = (0..whole.len()).map(|len| whole[..len].to_vec()).collect();
    for at in 0..whole.len() {
        for byte in [0, 1, 2, 127, 255, whole[at] ^ 1, whole[at] ^ 128] {
            let mut reply = whole.clone();
            reply[at] = byte;
            replies.push(reply);
        }
    }
    for reply in replies {
        let (mut tree, mut rows) = side(&ours());
        tree.ask().unwrap();
        assert!(matches!(take(&mut tree, &mut rows, u64::MAX, &hex(REPLIES[0])), Ok(Step::Ask(_))));
        match take(&mut tree, &mut rows, u64::MAX, &reply) {
            Ok(_) => assert!(ours().keys().all(|key| rows.contains_key(key))),
            Err(error) => {
                assert_eq!(io::Error::from(error).kind(), ErrorKind::InvalidData);
                assert_ne!(reply, whole);
                assert_eq!((rows, tree.root_hash()), (ours(), side(&ours()).0.root_hash()));
            }
        }
    }
}

#[test]
fn a_peer_that_breaks_off() {
    let whole = framed(&REPLIES.map(hex));
    for len in 0..whole.len() {
        let (mut tree, mut rows) = side(&ours());
        let mut peer = Peer::sending(&whole[..len]);
        let error = io::Error::from(catch_up(&mut tree, &mut rows, &mut peer).unwrap_err());
        assert_eq!((error.kind(), rows), (ErrorKind::UnexpectedEof, ours()));
    }
}

#[test]
fn more_rows_than_the_limit() {
    for (session_rows, is_taken) in [(2, true), (1, false)] {
        let limits = Limits { session_rows, ..Limits::default() };
        let said = || Peer::saying(&REPLIES.map(hex));
        let (mut tree, mut rows) = side(&ours());
        let caught_up = catch_up_within(limits, latest(), &mut tree, &mut rows, &mut said());
        let shared = Mutex::new(side(&ours()));
        let caught_up_by = catch_up_by(limits, latest(), &mut said(), || shared.lock().unwrap());
        for (came, (mut tree, rows)) in [(caught_up, (tree, rows)), (caught_up_by, shared.into_inner().unwrap())] {
            let wanted = if is_taken { theirs() } else { ours() };
            let came = came.map_err(|failed| io::Error::from(failed).kind());
            assert_eq!(came, if is_taken { Ok(2) } else { Err(ErrorKind::InvalidData) });
            assert_eq!((tree.root_hash(), rows), (side(&wanted).0.root_hash(), wanted));
        }
    }
}

/// Rows that can be read, and not be written.
struct ReadOnly(Table);

impl Registers for ReadOnly {
    type Error = &'static str;

    fn register(&mut self, key: &str) -> Result<Option<Register>, &'static str> {
        if key == "bee" {
            return Err("no bee");
        }
        self.0.register(key).map_err(|never: Infallible| match never {})
    }

    fn registers_in(&mut self, range: Range<'_>, give: &mut Give<'_>) -> Result<(), &'static str> {
        self.0.registers_in(range, give).map_err(|never| match never {})
    }

    fn join(&mut self, _came: Vec<Entry>) -> Result<Vec<Entry>, &'static str> {
        Err("read-only")
    }
}

#[test]
fn rows_that_fail() {
    let (mut tree, rows) = side(&ours());
    let mut rows = ReadOnly(rows);
    let mut peer = Peer::saying(&REPLIES.map(hex));
    assert_eq!(catch_up(&mut tree, &mut rows, &mut peer).unwrap_err().to_string(), "read-only");
    assert_eq!(tree.root_hash(), side(&ours()).0.root_hash());
    let asks_bee = hex("01 04 01 04 03626565");
    let mut peer = Peer::saying(&[asks_bee]);
    assert_eq!(serve(&mut tree, &mut rows, &mut peer).unwrap_err().to_string(), "no bee");
    assert!(peer.heard.is_empty());
}
