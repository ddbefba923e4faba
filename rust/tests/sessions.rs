//! Sessions that end early or have bounds: connections that are cut or silent, messages and rows above the limits, and settings that differ, also
//! where a side has no row.
#[macro_use]
mod common;

use common::{
    assert_has, both_ways, both_ways_over, by_steps, fault, joined, kind, other_settings, Model, Side, Store,
};
use merkle_search_tree::{
    replica::{Fault, Limits, Replica, REFUSAL},
    sync::SyncTree,
};
use std::{
    io::{self, ErrorKind, Read, Write},
    net::{Shutdown, TcpListener, TcpStream},
    os::unix::net::UnixStream,
    thread,
    time::{Duration, Instant},
};

of_each_kind!(
    connections_that_are_cut_after_each_byte,
    a_peer_that_is_silent,
    a_peer_that_takes_nothing,
    a_peer_that_sends_a_byte_now_and_then_until_another_thread_shuts_the_connection,
    settings_that_differ_are_an_error_in_one_round_without_rows_too,
    sides_without_rows_that_have_the_same_settings,
);

fn every(step: usize, most: usize) -> Model {
    (0..most).step_by(step).map(|i| (format!("{i}").into_bytes(), vec![b'0' + step as u8; 20])).collect()
}

/// A connection that is lost once so many bytes went over it, both ways together.
struct Cut {
    connection: UnixStream,
    left: usize,
}

impl Cut {
    /// How many of these bytes may go.
    fn within(&self, bytes: usize) -> usize {
        if self.left == 0 {
            let _ = self.connection.shutdown(Shutdown::Both);
        }
        bytes.min(self.left.max(1))
    }
}

impl Read for Cut {
    fn read(&mut self, out: &mut [u8]) -> io::Result<usize> {
        let within = self.within(out.len());
        let read = self.connection.read(&mut out[..within])?;
        self.left = self.left.saturating_sub(read);
        Ok(read)
    }
}

impl Write for Cut {
    fn write(&mut self, bytes: &[u8]) -> io::Result<usize> {
        let written = self.connection.write(&bytes[..self.within(bytes.len())])?;
        self.left = self.left.saturating_sub(written);
        Ok(written)
    }

    fn flush(&mut self) -> io::Result<()> {
        Ok(())
    }
}

fn connections_that_are_cut_after_each_byte<S: Side>() {
    let (left, right) = (every(2, 24), every(3, 24));
    let (wanted, mut lengths) = (joined(&left, &right), Vec::new());
    for left_over in 0.. {
        let (mut ours, mut theirs) = (S::new(&left), S::new(&right));
        let (connection, their_end) = UnixStream::pair().unwrap();
        let ends = both_ways_over(&mut ours, &mut theirs, Cut { connection, left: left_over }, their_end);
        let has_all = [&ours, &theirs].map(|side| side.held() == wanted);
        assert_has(&mut ours, if has_all[0] { &wanted } else { &left });
        assert_has(&mut theirs, if has_all[1] { &wanted } else { &right });
        if ends.iter().all(Result::is_ok) {
            assert_eq!(has_all, [true; 2]);
            assert!(lengths.starts_with(&[[false; 2], [true, false]]) && left_over > 500, "{lengths:?} {left_over}");
            return;
        }
        // How many bytes it takes until one side has all, and then the other.
        if lengths.last() != Some(&has_all) {
            lengths.push(has_all);
        }
        assert!(both_ways(&mut ours, &mut theirs).iter().all(Result::is_ok));
        assert_has(&mut ours, &wanted);
        assert_has(&mut theirs, &wanted);
    }
}

/// Two ends of a connection over TCP.
fn tcp() -> (TcpStream, TcpStream) {
    let listener = TcpListener::bind("127.0.0.1:0").unwrap();
    let ours = TcpStream::connect(listener.local_addr().unwrap()).unwrap();
    (ours, listener.accept().unwrap().0)
}

/// Whether a session ended since the peer was waited for too long.
fn timed_out(ended: io::Result<usize>) -> bool {
    matches!(kind(ended), ErrorKind::WouldBlock | ErrorKind::TimedOut)
}

fn a_peer_that_is_silent<S: Side>() {
    let (left, right) = (every(2, 24), every(3, 24));
    let mut ours = S::new(&left);
    // Before any byte, within a length, and within a message.
    for said in [&[][..], &[9, 0], &[9, 0, 0, 0, 0, 0, 0, 0, 1, 129]] {
        for asks in [true, false] {
            let (mut connection, mut peer) = tcp();
            connection.set_read_timeout(Some(Duration::from_millis(50))).unwrap();
            peer.write_all(said).unwrap();
            let begun = Instant::now();
            assert!(timed_out(if asks { ours.catch_up(&mut connection) } else { ours.serve(&mut connection) }));
            assert!(begun.elapsed() < Duration::from_secs(10));
            assert_has(&mut ours, &left);
        }
    }
    let mut theirs = S::new(&right);
    assert!(both_ways(&mut ours, &mut theirs).iter().all(Result::is_ok));
    assert_has(&mut ours, &joined(&left, &right));
    assert_has(&mut theirs, &joined(&left, &right));
}

fn a_peer_that_takes_nothing<S: Side>() {
    let rows = Model::from([(b"key".to_vec(), vec![1; 1 << 25])]);
    let mut ours = S::new(&rows);
    let (mut connection, mut peer) = tcp();
    connection.set_write_timeout(Some(Duration::from_millis(50))).unwrap();
    let question = [1, 5, 1, 0, 0];
    peer.write_all(&[&5_u64.to_le_bytes(), &question[..]].concat()).unwrap();
    assert!(timed_out(ours.serve(&mut connection)));
    assert_has(&mut ours, &rows);
}

fn a_peer_that_sends_a_byte_now_and_then_until_another_thread_shuts_the_connection<S: Side>() {
    let before = every(2, 24);
    let mut ours = S::new(&before);
    let (mut connection, mut peer) = tcp();
    connection.set_read_timeout(Some(Duration::from_millis(500))).unwrap();
    let other = connection.try_clone().unwrap();
    thread::scope(|scope| {
        scope.spawn(move || {
            let _ = peer.write_all(&1000_u64.to_le_bytes());
            while peer.write_all(&[1]).is_ok() {
                thread::sleep(Duration::from_millis(10));
            }
        });
        scope.spawn(move || {
            thread::sleep(Duration::from_millis(200));
            other.shutdown(Shutdown::Both)
        });
        assert_eq!(kind(ours.catch_up(&mut connection)), ErrorKind::UnexpectedEof);
        drop(connection);
    });
    assert_has(&mut ours, &before);
}

/// A catch-up with limits for both sides.
fn within(asks: Limits, answers: Limits, ours: &mut impl Side, theirs: &mut impl Side) -> io::Result<usize> {
    let (mut connection, mut their_end) = UnixStream::pair().unwrap();
    thread::scope(|scope| {
        scope.spawn(move || theirs.serve_within(answers, &mut their_end));
        let came = ours.catch_up_within(asks, &mut connection);
        drop(connection);
        came
    })
}

#[test]
fn a_peer_that_ends_early_is_told_as_one() {
    for said in [&[][..], &[9, 0, 0], &[9, 0, 0, 0, 0, 0, 0, 0, 1]] {
        let (mut connection, mut peer) = UnixStream::pair().unwrap();
        peer.write_all(said).unwrap();
        peer.shutdown(Shutdown::Write).unwrap();
        let error = Store::new(&every(2, 300)).catch_up(&mut connection).unwrap_err();
        assert_eq!(
            (error.kind(), &*error.to_string()),
            (ErrorKind::UnexpectedEof, "the peer ended before it was done")
        );
    }
}

#[test]
fn a_bound_on_the_bytes_of_a_session_is_told_as_one() {
    let limits = Limits { session_bytes: 1000, ..Limits::default() };
    let (mut ours, mut theirs) = (Store::new(&every(2, 300)), Store::new(&every(3, 300)));
    let ended = within(limits, Limits::default(), &mut ours, &mut theirs);
    assert_eq!(ended.unwrap_err().to_string(), "the messages have more bytes together than the limit allows");
}

#[test]
fn bounds_on_the_bytes_and_the_rows_of_a_session() {
    let (left, right) = (every(2, 300), every(3, 300));
    let all = Limits::default();
    let mut answering = Store::new(&right);
    let (came, bytes) = by_steps(&mut Store::new(&left), |question| answering.answer(question)).unwrap();
    assert!(came == 100 && bytes > 2000, "{came} {bytes}");
    let bytes_of = |bytes: usize| Limits { session_bytes: bytes as u64, ..all };
    let rows_of = |session_rows| Limits { session_rows, ..all };
    for (asks, answers, well) in [
        (bytes_of(bytes), all, true),
        (bytes_of(bytes - 1), all, false),
        (bytes_of(10), all, false),
        (all, bytes_of(bytes), true),
        (all, bytes_of(bytes - 1), false),
        (all, bytes_of(0), false),
        (rows_of(came), all, true),
        (rows_of(came - 1), all, false),
        (all, rows_of(0), true),
    ] {
        let (mut ours, mut theirs) = (Store::new(&left), Store::new(&right));
        let ended = within(asks, answers, &mut ours, &mut theirs);
        assert_has(&mut theirs, &right);
        if well {
            assert_eq!(ended.unwrap(), came);
            assert_has(&mut ours, &joined(&left, &right));
        } else {
            assert_eq!(kind(ended), ErrorKind::InvalidData);
            assert_has(&mut ours, &left);
            assert_eq!(within(all, all, &mut ours, &mut theirs).unwrap(), came);
        }
    }
    let (mut ours, mut theirs) = (Replica::from_iter(&left), Replica::from_iter(&right));
    assert_eq!(kind(within(bytes_of(1000), all, &mut ours, &mut theirs)), ErrorKind::InvalidData);
    assert_has(&mut ours, &left);
}

fn settings_that_differ_are_an_error_in_one_round_without_rows_too<S: Side>() {
    let none = Model::new();
    for settings in other_settings() {
        for (left, right) in [(&none, &every(3, 24)), (&every(2, 24), &none), (&none, &none)] {
            let mut ours = S::with(left, &settings);
            let question = ours.ask().unwrap();
            assert_eq!(Replica::from_iter(right).answer(&question), Err(Fault::OtherSettings));
            assert!(matches!(SyncTree::from_iter(right).answer(&question), Err(Fault::OtherSettings)));
            assert_eq!(fault(ours.take(&REFUSAL)), Fault::Refused);
        }
    }
}

fn sides_without_rows_that_have_the_same_settings<S: Side>() {
    for settings in other_settings() {
        let [mut ours, mut theirs] = [(); 2].map(|()| S::with(&Model::new(), &settings));
        assert_eq!(both_ways(&mut ours, &mut theirs).map(Result::unwrap), [0, 0]);
        let rows = Model::from([(Vec::new(), b"of the empty key".to_vec()), (b"kiwi".to_vec(), Vec::new())]);
        let mut theirs = S::with(&rows, &settings);
        assert_eq!(both_ways(&mut ours, &mut theirs).map(Result::unwrap), [2, 0]);
        assert_eq!((ours.held(), ours.root_hash()), (rows, theirs.root_hash()));
    }
}
