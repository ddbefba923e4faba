//! The keys that a tree of digests has in a range, from its own replies to the questions of docs/WIRE.md by which a peer goes down it: `mst_sync.h`
//! has no call that lists them.
use crate::{
    sync::Range,
    sys::{Answered, Refused, Side},
    OutOfMemory,
};

/// How many bytes a digest has.
const DIGEST: usize = 16;

/// How many bytes of a key the next one of a run refers to.
const MOST_SHARED: usize = 255;

/// The keys that are above the first and below the second, where there is one.
type Gap<'a> = [Option<&'a [u8]>; 2];

/// The keys in a range, in their order.
pub(crate) fn keys_in(side: &mut Side, range: Range<'_>) -> Result<Vec<Vec<u8>>, OutOfMemory> {
    let mut keys = Vec::new();
    add_page(side, [None, None], range, &mut keys)?;
    Ok(keys)
}

/// Adds the keys of a page and of the pages below it that are in a range.
fn add_page(side: &mut Side, gap: Gap<'_>, range: Range<'_>, keys: &mut Vec<Vec<u8>>) -> Result<(), OutOfMemory> {
    let reply = match side.answer(&asks_for_page(gap)) {
        Ok(Answered::Reply(reply)) => reply,
        Err(Refused::Memory) => return Err(OutOfMemory),
        _ => unreachable!("a tree tells its pages without rows"),
    };
    let page = Page::read(&reply, gap[0]).expect("the library writes what docs/WIRE.md says");
    let mut after = gap[0];
    for (at, is_page) in page.below.into_iter().enumerate() {
        let before = page.keys.get(at).map(Vec::as_slice).or(gap[1]);
        if is_page && before.is_none_or(|key| range.first < key) && is_below(after, range) {
            add_page(side, [after, before], range, keys)?;
        }
        after = page.keys.get(at).map(Vec::as_slice);
        keys.extend(after.filter(|key| range.first <= *key && is_below(after, range)).map(<[u8]>::to_vec));
    }
    Ok(())
}

/// Whether keys right above this one may be below the end of a range.
fn is_below(after: Option<&[u8]>, range: Range<'_>) -> bool {
    range.end.is_none_or(|end| after.is_none_or(|key| key < end))
}

/// The nodes of a page, and before each and after the last whether there is a page below.
struct Page {
    keys: Vec<Vec<u8>>,
    below: Vec<bool>,
}

impl Page {
    /// The page of a reply with one outline, whose keys are above this one.
    fn read(reply: &[u8], after: Option<&[u8]>) -> Option<Self> {
        let mut reply = Reader(reply.strip_prefix(&[1, 130])?);
        let has_pages = reply.cut(1)? == [2];
        if has_pages {
            reply.cut(DIGEST)?;
        }
        let mut last = after.map_or_else(Vec::new, spelled);
        last.truncate(MOST_SHARED);
        let keys = (0..reply.count()?).map(|_| reply.key(&mut last)).collect::<Option<Vec<_>>>()?;
        let below =
            (0..=keys.len()).map(|_| if has_pages { reply.is_digest() } else { Some(false) }).collect::<Option<_>>()?;
        Some(Self { keys, below })
    }
}

/// What is left of a reply.
struct Reader<'a>(&'a [u8]);

impl<'a> Reader<'a> {
    fn cut(&mut self, len: usize) -> Option<&'a [u8]> {
        let (front, rest) = self.0.split_at_checked(len)?;
        self.0 = rest;
        Some(front)
    }

    fn count(&mut self) -> Option<usize> {
        let byte = usize::from(self.cut(1)?[0]);
        if byte < 128 {
            Some(byte)
        } else {
            Some(byte - 128 + (self.count()? << 7))
        }
    }

    /// A key of a run, after the first bytes of the one before.
    fn key(&mut self, last: &mut Vec<u8>) -> Option<Vec<u8>> {
        let (kept, more) = match self.cut(1)?[0] {
            240 => (self.count()?, self.count()?),
            front => (usize::from(front / 16), usize::from(front % 16)),
        };
        *last = [last.get(..kept)?, self.cut(more)?].concat();
        let mut whole = Reader(last);
        let len = whole.count()?;
        let key = whole.cut(len)?.to_vec();
        last.truncate(MOST_SHARED);
        Some(key)
    }

    /// Whether a digest is there, which is gone over.
    fn is_digest(&mut self) -> Option<bool> {
        let is_there = self.cut(1)? == [1];
        if is_there {
            self.cut(DIGEST)?;
        }
        Some(is_there)
    }
}

/// The question for the outline of the page over a gap.
fn asks_for_page(gap: Gap<'_>) -> Vec<u8> {
    let (mut question, mut last) = (vec![1, 2, 0, 1], Vec::new());
    for bound in gap {
        question.push(bound.is_some().into());
        if let Some(key) = bound {
            write_key(key, &mut last, &mut question);
        }
    }
    question
}

/// Writes a key of a run, after the first bytes of the one before.
fn write_key(key: &[u8], last: &mut Vec<u8>, bytes: &mut Vec<u8>) {
    let whole = spelled(key);
    let kept = last.iter().zip(&whole).take_while(|(one, other)| one == other).count();
    let more = whole.len() - kept;
    if kept < 15 && more < 16 {
        bytes.push((16 * kept + more) as u8);
    } else {
        bytes.push(240);
        write_count(kept, bytes);
        write_count(more, bytes);
    }
    bytes.extend_from_slice(&whole[kept..]);
    *last = whole;
    last.truncate(MOST_SHARED);
}

/// A key by itself: how many bytes it has, and these.
fn spelled(key: &[u8]) -> Vec<u8> {
    let mut bytes = Vec::new();
    write_count(key.len(), &mut bytes);
    bytes.extend_from_slice(key);
    bytes
}

fn write_count(mut number: usize, bytes: &mut Vec<u8>) {
    while number > 127 {
        bytes.push((number & 127) as u8 | 128);
        number >>= 7;
    }
    bytes.push(number as u8);
}
