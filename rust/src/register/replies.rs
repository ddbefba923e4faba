//! Replies to a catch-up with another form of their values: registers, or byte strings of what is hashed of them. docs/WIRE.md has the messages.
use super::Register;
use crate::replica::Fault;

/// How many bytes a digest has.
const DIGEST: u64 = 16;

/// A reply whose values are registers, with byte strings in place of these.
pub(super) fn with_byte_strings(reply: &[u8]) -> Result<Vec<u8>, Fault> {
    rewritten(reply, |reader, out| {
        let value = Register::decode(reader)?.hashed_bytes();
        encode_count(value.len() as u64, out);
        out.extend_from_slice(&value);
        Some(())
    })
}

/// The reply of which [`with_byte_strings`] makes this one.
pub(super) fn with_registers(reply: &[u8]) -> Result<Vec<u8>, Fault> {
    rewritten(reply, |reader, out| {
        Register::of_hashed_bytes(reader.string()?)?.encode(out);
        Some(())
    })
}

/// Writes a count: seven bits a byte, the lowest first, with 128 more in each byte but the last.
pub(super) fn encode_count(mut count: u64, out: &mut Vec<u8>) {
    while count > 127 {
        out.push(count as u8 | 128);
        count >>= 7;
    }
    out.push(count as u8);
}

/// How a value is read, and its other form written.
type Rewrite = fn(&mut Reader<'_>, &mut Vec<u8>) -> Option<()>;

/// A reply with its values in another form.
fn rewritten(reply: &[u8], rewrite: Rewrite) -> Result<Vec<u8>, Fault> {
    let mut rewriting = Rewriting { reader: Reader::new(reply), copied: 0, out: Vec::new(), rewrite };
    rewriting.run().ok_or(Fault::Malformed)?;
    let Rewriting { copied, mut out, .. } = rewriting;
    out.extend_from_slice(&reply[copied..]);
    Ok(out)
}

/// A reply that is rewritten. The calls return `None` if it isn't one.
struct Rewriting<'a> {
    reader: Reader<'a>,
    /// How many of its bytes are written.
    copied: usize,
    out: Vec<u8>,
    rewrite: Rewrite,
}

impl Rewriting<'_> {
    fn run(&mut self) -> Option<()> {
        let entry = match self.reader.bytes.get(1) {
            Some(130 | 131) => Self::outline,
            Some(132) => Self::value_at_a_key,
            Some(133) => Self::part,
            _ => return Some(()),
        };
        self.reader.take(2)?;
        while !self.reader.is_read() {
            entry(self)?;
        }
        Some(())
    }

    fn value(&mut self) -> Option<()> {
        self.out.extend_from_slice(&self.reader.bytes[self.copied..self.reader.at]);
        (self.rewrite)(&mut self.reader, &mut self.out)?;
        self.copied = self.reader.at;
        Some(())
    }

    fn rows(&mut self) -> Option<()> {
        for _ in 0..self.reader.count()? {
            self.reader.skip_key()?;
            self.value()?;
        }
        Some(())
    }

    fn outline(&mut self) -> Option<()> {
        match self.reader.byte()? {
            0 => self.rows(),
            1 => {
                let keys = self.reader.skip_keys()?;
                self.reader.take(keys.checked_mul(DIGEST)?)?;
                Some(())
            }
            _ => {
                self.reader.take(DIGEST)?;
                for _ in 0..=self.reader.skip_keys()? {
                    let is_there = self.reader.flag()?;
                    self.reader.take(if is_there { DIGEST } else { 0 })?;
                }
                Some(())
            }
        }
    }

    fn value_at_a_key(&mut self) -> Option<()> {
        if self.reader.flag()? {
            self.value()?;
        }
        Some(())
    }

    fn part(&mut self) -> Option<()> {
        self.rows()?;
        self.reader.flag()?;
        Some(())
    }
}

/// Bytes that are read from the front. The calls return `None` if they don't begin with what is read.
pub(super) struct Reader<'a> {
    bytes: &'a [u8],
    at: usize,
}

impl<'a> Reader<'a> {
    pub(super) fn new(bytes: &'a [u8]) -> Self {
        Self { bytes, at: 0 }
    }

    pub(super) fn is_read(&self) -> bool {
        self.at == self.bytes.len()
    }

    fn take(&mut self, len: u64) -> Option<&'a [u8]> {
        let part = self.bytes[self.at..].get(..usize::try_from(len).ok()?)?;
        self.at += part.len();
        Some(part)
    }

    pub(super) fn byte(&mut self) -> Option<u8> {
        self.take(1).map(|byte| byte[0])
    }

    pub(super) fn count(&mut self) -> Option<u64> {
        let mut count = 0;
        for place in 0..10 {
            let byte = self.byte()?;
            let bits = u64::from(byte & 127);
            if place == 9 && bits > 1 {
                return None;
            }
            count |= bits << (7 * place);
            if byte < 128 {
                // It is in as few bytes as it takes.
                return (byte > 0 || place == 0).then_some(count);
            }
        }
        None
    }

    fn flag(&mut self) -> Option<bool> {
        match self.byte()? {
            flag @ (0 | 1) => Some(flag == 1),
            _ => None,
        }
    }

    pub(super) fn string(&mut self) -> Option<&'a [u8]> {
        let len = self.count()?;
        self.take(len)
    }

    /// Skips a key of a run: how many bytes it keeps of the key before, and its other bytes.
    fn skip_key(&mut self) -> Option<()> {
        let front = self.byte()?;
        if front < 240 {
            self.take(u64::from(front & 15))?;
        } else {
            self.count()?;
            self.string()?;
        }
        Some(())
    }

    /// Skips a list of keys, and returns how many there are.
    fn skip_keys(&mut self) -> Option<u64> {
        let count = self.count()?;
        for _ in 0..count {
            self.skip_key()?;
        }
        Some(count)
    }
}
