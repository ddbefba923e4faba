//! Standard input and output as one connection, for the examples replica_over_pipes and sync_over_pipes.
use std::io::{self, Read, Write};

pub struct StandardStreams;

impl Read for StandardStreams {
    fn read(&mut self, out: &mut [u8]) -> io::Result<usize> {
        io::stdin().read(out)
    }
}

impl Write for StandardStreams {
    fn write(&mut self, bytes: &[u8]) -> io::Result<usize> {
        io::stdout().write(bytes)
    }

    fn flush(&mut self) -> io::Result<()> {
        io::stdout().flush()
    }
}
