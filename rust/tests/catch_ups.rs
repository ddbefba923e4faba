//! Catch-ups of replicas, and of rows that are elsewhere: what they bring and cost, limits, sides that threads share, and peers that don't keep to
//! the messages.
#[macro_use]
mod common;

use common::{
    assert_has, both_ways, by_steps, drawn, draws, every, fault, framed, joined, kind, lacked, of, other_settings,
    said, Begun, Model, Peer, Side, Store,
};
use merkle_search_tree::{
    builder::PageFormat,
    digest::siphash::SipHasher,
    replica::{Fault, Limits, Replica, Step, REFUSAL},
};
use std::{
    collections::BTreeSet,
    io::{self, ErrorKind, Write},
    mem,
    num::NonZeroU8,
    os::unix::net::UnixStream,
    sync::{Barrier, Mutex},
    thread,
    time::Duration,
};

of_each_kind!(
    under_other_settings_that_both_have,
    what_it_costs_is_what_differs,
    what_is_put_in_between_stays_and_a_side_answers_while_it_asks,
    other_settings_are_refused,
    peers_that_break_off,
    what_is_no_message,
    limits,
    messages_that_are_altered,
    threads_share_a_side,
    hubs_catch_up_with_each_other_at_the_same_time,
    another_catch_up_takes_the_place_of_one,
    a_peer_that_is_gone_is_told_by_what_it_sent,
);

fn come_to_hold_the_join<L: Side, R: Side>() {
    let mut draw = draws(7);
    for size in [0, 1, 5, 60, 400].repeat(8) {
        let (left, right) = (drawn(&mut draw, size), drawn(&mut draw, size));
        let wanted = joined(&left, &right);
        let (mut ours, mut theirs) = (L::new(&left), R::new(&right));
        let came = both_ways(&mut ours, &mut theirs).map(Result::unwrap);
        assert_eq!(came, [lacked(&left, &right), lacked(&right, &wanted)]);
        assert_has(&mut ours, &wanted);
        assert_has(&mut theirs, &wanted);
    }
}

#[test]
fn both_come_to_hold_the_join() {
    of_each_pair!(come_to_hold_the_join);
}

fn come_to_hold_a_row_more<L: Side, R: Side>() {
    let all: Model = (0..2000)
        .map(|i| (format!("key{i:04}").into_bytes(), format!("{i} and a value as long as that").into_bytes()))
        .collect();
    for at in [0, 1, 777, 1998, 1999] {
        let key = format!("key{at:04}").into_bytes();
        let (mut greater, mut less, mut fewer) = (all.clone(), all.clone(), all.clone());
        greater.insert(key.clone(), b"z".to_vec());
        less.insert(key.clone(), b"".to_vec());
        fewer.remove(&key);
        for (theirs, ours, came) in [(&greater, &all, 1), (&less, &all, 1), (&all, &fewer, 1), (&fewer, &all, 0)] {
            let (mut side, mut peer) = (L::new(ours), R::new(theirs));
            let (brought, size) = by_steps(&mut side, |question| peer.answer(question)).unwrap();
            assert!(brought == came && size < 4000, "{brought} {size}");
            assert_has(&mut side, &joined(ours, theirs));
        }
    }
}

#[test]
fn rows_that_are_changed_missing_or_more() {
    of_each_pair!(come_to_hold_a_row_more);
}

fn under_other_settings_that_both_have<S: Side>() {
    let (mut draw, greatest) = (draws(9), (SipHasher::default(), NonZeroU8::MAX, PageFormat::V1));
    for settings in other_settings().into_iter().chain([greatest]) {
        let (left, right) = (drawn(&mut draw, 200), drawn(&mut draw, 200));
        let [mut ours, mut theirs] = [&left, &right].map(|rows| S::with(rows, &settings));
        assert!(both_ways(&mut ours, &mut theirs).iter().all(Result::is_ok));
        let wanted = joined(&left, &right);
        assert_eq!([ours.held(), theirs.held()], [wanted.clone(), wanted.clone()]);
        let root = S::with(&wanted, &settings).root_hash();
        assert_eq!([ours.root_hash(), theirs.root_hash()], [root; 2]);
    }
}

fn what_it_costs_is_what_differs<S: Side>() {
    let rows: Model = (0..20_000).map(|i| (format!("key{i:06}").into_bytes(), Vec::new())).collect();
    let [mut ours, mut theirs] = [(); 2].map(|()| S::new(&rows));
    theirs.put(b"key012345", b"new");
    let (came, size) = by_steps(&mut ours, |question| theirs.answer(question)).unwrap();
    assert_eq!((came, ours.held()), (1, theirs.held()));
    assert!(size < 2500, "{size}");
    let (came, size) = by_steps(&mut ours, |question| theirs.answer(question)).unwrap();
    assert!(came == 0 && size < 100, "{size}");
}

fn what_is_put_in_between_stays_and_a_side_answers_while_it_asks<S: Side>() {
    let [mut ours, mut theirs, mut third] = [2, 3, 5].map(of::<S>);
    let mut question = ours.ask().unwrap();
    loop {
        ours.put(b"own", b"1");
        by_steps(&mut third, |question| ours.answer(question)).unwrap();
        match ours.take(&theirs.answer(&question).unwrap()).unwrap() {
            Step::Ask(next) => question = next,
            Step::Joined(_) => break,
        }
    }
    let own = Model::from([(b"own".to_vec(), b"1".to_vec())]);
    assert_has(&mut ours, &joined(&joined(&every(2), &every(3)), &own));
    assert_has(&mut third, &joined(&joined(&every(2), &every(5)), &own));
    assert_eq!(fault(ours.take(&[])), Fault::NotAsking);
}

fn other_settings_are_refused<S: Side>() {
    let row = Model::from([(b"a".to_vec(), b"1".to_vec())]);
    for settings in other_settings() {
        let (mut ours, mut theirs) = (of::<S>(2), S::with(&row, &settings));
        let question = ours.ask().unwrap();
        assert_eq!(fault(theirs.answer(&question)), Fault::OtherSettings);
        assert_eq!(fault(ours.take(&REFUSAL)), Fault::Refused);
        assert_eq!(both_ways(&mut ours, &mut theirs).map(fault), [Fault::Refused, Fault::OtherSettings]);
        assert_has(&mut ours, &every(2));
        assert_eq!(theirs.held(), row);
    }
}

fn peers_that_break_off<S: Side>() {
    let bytes = framed(&said(&mut of::<S>(2), &mut of::<S>(3)));
    let mut ours = of::<S>(2);
    for end in 0..bytes.len() {
        assert_eq!(kind(ours.catch_up(&mut Peer::sending(&bytes[..end]))), ErrorKind::UnexpectedEof, "{end}");
        assert_has(&mut ours, &every(2));
        assert_eq!(fault(ours.take(&[])), Fault::NotAsking);
    }
    assert_eq!(ours.catch_up(&mut Peer::sending(&bytes)).unwrap(), 50);
    assert_has(&mut ours, &joined(&every(2), &every(3)));
    assert_eq!(ours.serve(&mut Peer::sending(&[])).unwrap(), 0);
    for end in [1, 7, 8, 9] {
        let mut peer = Peer::sending(&framed(&[[1, 2, 16, 1, 0, 0]])[..end]);
        assert_eq!(kind(ours.serve(&mut peer)), ErrorKind::UnexpectedEof);
        assert!(peer.heard.is_empty());
    }
}

fn what_is_no_message<S: Side>() {
    let said = said(&mut of::<S>(2), &mut of::<S>(3));
    let first = &said[0][..];
    let longer = [first, &[0]].concat();
    let cases: [&[&[u8]]; 8] = [
        &[b""],
        &[b"\x01"],
        &[&first[..first.len() - 1]],
        &[&longer],
        &[first, first],
        &[first, b"no reply"],
        &[&said[1]],
        &[&[0; 2000]],
    ];
    for (at, messages) in cases.into_iter().enumerate() {
        let (mut ours, limits) = (of::<S>(2), Limits { bytes: 1000, ..Limits::default() });
        let ended = ours.catch_up_within(limits, &mut Peer::saying(messages));
        assert_eq!(kind(ended), ErrorKind::InvalidData, "{at}");
        assert_eq!(fault(ours.take(first)), Fault::NotAsking, "{at}");
        assert_has(&mut ours, &every(2));
    }
    let question = of::<S>(2).ask().unwrap();
    let longer = [&question[..], &[0]].concat();
    let cases: [&[u8]; 5] = [b"\x01", &question[..question.len() - 1], &longer, &REFUSAL, first];
    for (at, message) in cases.into_iter().enumerate() {
        let (mut ours, mut peer) = (of::<S>(2), Peer::saying(&[message]));
        assert_eq!(fault(ours.answer(message)), Fault::Malformed, "{at}");
        assert_eq!(kind(ours.serve(&mut peer)), ErrorKind::InvalidData, "{at}");
        assert!(peer.was_refused(), "{at}");
        assert_has(&mut ours, &every(2));
    }
    assert_eq!(fault(of::<S>(2).answer(b"")), Fault::Malformed);
}

fn limits<S: Side>() {
    let (mut theirs, asked) = (of::<S>(3), of::<S>(2).ask().unwrap());
    let question = &asked[..];
    let within = |bytes: usize| Limits { bytes: bytes as u64, ..Limits::default() };
    let [one, two] = [1, 2].map(|messages| Limits { messages, ..Limits::default() });
    for (limits, questions) in [(within(question.len() - 1), 1), (two, 3)] {
        let mut peer = Peer::saying(&vec![question; questions]);
        assert_eq!(kind(theirs.serve_within(limits, &mut peer)), ErrorKind::InvalidData);
        assert!(peer.was_refused());
    }
    for (limits, questions, answered) in [
        (within(question.len()), vec![question], 1),
        (two, vec![question, question], 2),
        (two, vec![question, b"", question], 1),
    ] {
        assert_eq!(theirs.serve_within(limits, &mut Peer::saying(&questions)).unwrap(), answered);
    }
    let (none, mut ours) = (Model::new(), S::new(&Model::new()));
    let said = said(&mut S::new(&none), &mut theirs);
    let longest = said.iter().map(Vec::len).max().unwrap();
    for limits in [one, within(longest - 1)] {
        assert_eq!(kind(ours.catch_up_within(limits, &mut Peer::saying(&said))), ErrorKind::InvalidData);
        assert_has(&mut ours, &none);
        assert_eq!(fault(ours.take(&[])), Fault::NotAsking);
    }
    let limits = Limits { messages: 2, ..within(longest) };
    assert_eq!(ours.catch_up_within(limits, &mut Peer::saying(&said)).unwrap(), 100);
}

fn messages_that_are_altered<S: Side>() {
    let mut said = said(&mut of::<S>(2), &mut of::<S>(3));
    let (mut draw, mut ends, before) = (draws(11), BTreeSet::new(), every(2));
    let limits = Limits { bytes: 1 << 20, messages: 50, ..Limits::default() };
    let [mut ours, mut other] = [2, 3].map(of::<S>);
    for _ in 0..3000 {
        let message = draw(said.len() as u64) as usize;
        let kept = said[message].clone();
        for _ in 0..1 + draw(2) {
            let below = if draw(2) == 0 { 8.min(kept.len()) } else { kept.len() };
            said[message][draw(below as u64) as usize] = draw(256) as u8;
        }
        let ended = ours.catch_up_within(limits, &mut Peer::saying(&said));
        if ended.is_ok() {
            let after = ours.held();
            assert!(before.iter().all(|(key, value)| after[key] >= *value));
            assert_has(&mut ours, &after);
            ours = of(2);
        } else {
            assert_has(&mut ours, &before);
        }
        ends.insert(ended.map(drop).map_err(|error| error.kind()));
        let _ = other.answer(&said[message]);
        said[message] = kept;
    }
    let mut question = of::<S>(2).ask().unwrap();
    for _ in 0..3000 {
        let at = draw(question.len() as u64) as usize;
        let kept = mem::replace(&mut question[at], draw(256) as u8);
        let _ = other.answer(&question);
        question[at] = kept;
    }
    assert_has(&mut other, &every(3));
    assert!(ends.contains(&Ok(())) && ends.contains(&Err(ErrorKind::InvalidData)), "{ends:?}");
}

fn threads_share_a_side<S: Side>() {
    let hub = Mutex::new(of::<S>(7));
    let mut peers = [2, 3, 5].map(of::<S>);
    thread::scope(|scope| {
        for peer in &mut peers {
            let (mut ours, mut theirs) = UnixStream::pair().unwrap();
            let hub = &hub;
            scope.spawn(move || S::serve_by(&mut ours, || hub.lock().unwrap()).unwrap());
            scope.spawn(move || assert!(peer.catch_up(&mut theirs).unwrap() > 0));
        }
    });
    let mut hub = hub.into_inner().unwrap();
    for (peer, step) in peers.iter_mut().zip([2, 3, 5]) {
        assert_has(peer, &joined(&every(step), &every(7)));
        by_steps(&mut hub, |question| peer.answer(question)).unwrap();
    }
    assert_has(&mut hub, &[2, 3, 5].map(every).iter().fold(every(7), |rows, more| joined(&rows, more)));
}

/// One catch-up of a hub with another that is served by a thread of its own.
fn with_a_hub<S: Side>(asks: &Mutex<S>, answers: &Mutex<S>, begun: Option<&Barrier>) -> io::Result<usize> {
    let (ours, mut theirs) = UnixStream::pair()?;
    ours.set_read_timeout(Some(Duration::from_secs(20)))?;
    thread::scope(|scope| {
        scope.spawn(move || S::serve_by(&mut theirs, || answers.lock().unwrap()).unwrap());
        S::catch_up_by(&mut Begun(ours, begun), || asks.lock().unwrap())
    })
}

fn hubs_catch_up_with_each_other_at_the_same_time<S: Side>() {
    for steps in [[2, 3], [3, 7], [1, 300]] {
        let hubs = steps.map(|step| Mutex::new(of::<S>(step)));
        let begun = Barrier::new(2);
        thread::scope(|scope| {
            for [asks, answers] in [[&hubs[0], &hubs[1]], [&hubs[1], &hubs[0]]] {
                let begun = &begun;
                scope.spawn(move || {
                    let mut ended = with_a_hub(asks, answers, Some(begun));
                    // The rows that came to the other may have been joined between two replies.
                    while ended.as_ref().is_err_and(|error| error.kind() == ErrorKind::InvalidData) {
                        ended = with_a_hub(asks, answers, None);
                    }
                    ended.unwrap()
                });
            }
        });
        let wanted = joined(&every(steps[0]), &every(steps[1]));
        for hub in hubs {
            assert_has(&mut hub.into_inner().unwrap(), &wanted);
        }
    }
}

fn another_catch_up_takes_the_place_of_one<S: Side>() {
    let (hub, mut theirs) = (Mutex::new(of::<S>(2)), of::<S>(3));
    let said = said(&mut of::<S>(2), &mut theirs);
    let (mut locked, mut question) = (0, Vec::new());
    let ended = S::catch_up_by(&mut Peer::saying(&said), || {
        locked += 1;
        let mut hub = hub.lock().unwrap();
        if locked == 2 {
            question = hub.ask().unwrap();
        }
        hub
    });
    assert_eq!(fault(ended), Fault::NotAsking);
    let mut hub = hub.into_inner().unwrap();
    while let Step::Ask(next) = hub.take(&theirs.answer(&question).unwrap()).unwrap() {
        question = next;
    }
    assert_has(&mut hub, &joined(&every(2), &every(3)));
}

fn a_peer_that_is_gone_is_told_by_what_it_sent<S: Side>() {
    let mut served = of::<S>(3);
    let other = S::with(&Model::new(), &other_settings()[0]).ask().unwrap();
    for message in [&b"no question"[..], &other, &[0; 2000]] {
        let (mut ours, mut theirs) = UnixStream::pair().unwrap();
        theirs.write_all(&framed(&[message])).unwrap();
        drop(theirs);
        let limits = Limits { bytes: 1000, ..Limits::default() };
        assert_eq!(kind(served.serve_within(limits, &mut ours)), ErrorKind::InvalidData);
    }
    let (mut ours, mut theirs) = UnixStream::pair().unwrap();
    theirs.write_all(&framed(&[of::<S>(2).ask().unwrap()])).unwrap();
    drop(theirs);
    assert_eq!(kind(served.serve(&mut ours)), ErrorKind::BrokenPipe);
}
