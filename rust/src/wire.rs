//! Messages over a connection: each is how many bytes it has, in eight bytes, the lowest first, and these bytes.
use std::io::{self, ErrorKind, Read, Write};

/// Sends a message.
pub(crate) fn send(connection: &mut impl Write, message: &[u8]) -> io::Result<()> {
    connection.write_all(&[&(message.len() as u64).to_le_bytes(), message].concat())?;
    connection.flush()
}

pub(crate) const TOO_LONG: &str = "the messages have more bytes together than the limit allows";

/// How many bytes the peer may send: in a message, and in what is left of the session.
#[derive(Clone, Copy)]
pub(crate) struct Bounds {
    pub(crate) message: u64,
    pub(crate) session: u64,
}

/// The next message of the peer. Memory is taken as it comes.
pub(crate) fn take(connection: &mut impl Read, bounds: Bounds) -> io::Result<Vec<u8>> {
    let mut len = [0; 8];
    fill(connection, &mut len)?;
    body(connection, u64::from_le_bytes(len), bounds)
}

/// The same; `None` where the connection ends in the place of a message.
pub(crate) fn take_or_end(connection: &mut impl Read, bounds: Bounds) -> io::Result<Option<Vec<u8>>> {
    let mut len = [0; 8];
    loop {
        match connection.read(&mut len[..1]) {
            Ok(0) => return Ok(None),
            Ok(_) => break,
            Err(error) if error.kind() == ErrorKind::Interrupted => {}
            Err(error) => return Err(error),
        }
    }
    fill(connection, &mut len[1..])?;
    body(connection, u64::from_le_bytes(len), bounds).map(Some)
}

fn body(connection: &mut impl Read, len: u64, bounds: Bounds) -> io::Result<Vec<u8>> {
    if len > bounds.message {
        return Err(unexpected("a message of the peer is above the limit"));
    }
    if len > bounds.session {
        return Err(unexpected(TOO_LONG));
    }
    let mut message = Vec::new();
    connection.by_ref().take(len).read_to_end(&mut message)?;
    if (message.len() as u64) < len {
        return Err(ended());
    }
    Ok(message)
}

fn fill(connection: &mut impl Read, bytes: &mut [u8]) -> io::Result<()> {
    connection.read_exact(bytes).map_err(|error| if error.kind() == ErrorKind::UnexpectedEof { ended() } else { error })
}

/// The error of a peer whose messages end too early.
fn ended() -> io::Error {
    io::Error::new(ErrorKind::UnexpectedEof, "the peer ended before it was done")
}

/// The error of a peer that doesn't keep to the messages.
pub(crate) fn unexpected(reason: impl Into<Box<dyn std::error::Error + Send + Sync>>) -> io::Error {
    io::Error::new(ErrorKind::InvalidData, reason)
}
