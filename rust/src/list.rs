//! Lists of `mst.h`, byte by byte: four bytes of a mark, how many entries there are in eight bytes, the lowest first, and the entries.
//! A string in them is its length in eight bytes and its bytes.
use std::ops::Range;

/// How many bytes are before the first entry.
pub(crate) const FRONT: usize = 12;

/// A list that is being written.
pub(crate) struct Writer {
    bytes: Vec<u8>,
    count: u64,
}

impl Writer {
    pub(crate) fn new(mark: &[u8; 4]) -> Self {
        let mut bytes = mark.to_vec();
        bytes.resize(FRONT, 0);
        Self { bytes, count: 0 }
    }

    /// Adds an entry of two strings, and of what follows them.
    pub(crate) fn push(&mut self, first: &[u8], second: &[u8], rest: &[u8]) {
        self.push_strings(&[first, second], rest);
    }

    /// Adds an entry of strings, and of what follows them.
    pub(crate) fn push_strings(&mut self, strings: &[&[u8]], rest: &[u8]) {
        for string in strings {
            self.bytes.extend_from_slice(&(string.len() as u64).to_le_bytes());
            self.bytes.extend_from_slice(string);
        }
        self.bytes.extend_from_slice(rest);
        self.count += 1;
    }

    /// How many bytes it has.
    pub(crate) fn len(&self) -> usize {
        self.bytes.len()
    }

    /// Whether it has no entry.
    pub(crate) fn is_empty(&self) -> bool {
        self.count == 0
    }

    /// Some of its bytes: those of an entry that was added.
    pub(crate) fn part(&self, at: Range<usize>) -> &[u8] {
        &self.bytes[at]
    }

    pub(crate) fn into_bytes(mut self) -> Vec<u8> {
        self.bytes[4..FRONT].copy_from_slice(&self.count.to_le_bytes());
        self.bytes
    }
}

/// How many entries a list has, by its front; none where it has no front.
pub(crate) fn count(list: &[u8]) -> usize {
    list.get(4..).and_then(<[u8]>::first_chunk).map_or(0, |count| u64::from_le_bytes(*count) as usize)
}

/// Cuts a string off the front of the bytes of a list.
pub(crate) fn string<'a>(bytes: &mut &'a [u8]) -> Option<&'a [u8]> {
    let (len, rest) = bytes.split_first_chunk()?;
    let (string, rest) = rest.split_at_checked(usize::try_from(u64::from_le_bytes(*len)).ok()?)?;
    *bytes = rest;
    Some(string)
}

/// A type of lists whose entries have keys of the type `K`, and the iteration over one.
macro_rules! keyed_list {
    ($(#[$doc:meta])* $list:ident of $item:ident by $iter:ident, $count:literal) => {
        $(#[$doc])*
        pub struct $list<K> {
            list: Vec<u8>,
            key: std::marker::PhantomData<fn() -> K>,
        }

        impl<K> $list<K> {
            /// A list with keys of the type, as the library writes it.
            pub(crate) fn of_list(list: Vec<u8>) -> Self {
                Self { list, key: std::marker::PhantomData }
            }

            #[doc = $count]
            pub fn len(&self) -> usize {
                crate::list::count(&self.list)
            }

            /// Whether there is none.
            pub fn is_empty(&self) -> bool {
                self.len() == 0
            }
        }

        impl<'a, K: Key> IntoIterator for &'a $list<K> {
            type Item = $item<'a, K>;
            type IntoIter = $iter<'a, K>;
            fn into_iter(self) -> $iter<'a, K> {
                self.iter()
            }
        }

        impl<K: Key> ExactSizeIterator for $iter<'_, K> {}
        impl<K: Key> std::iter::FusedIterator for $iter<'_, K> {}

        impl<K> fmt::Debug for $iter<'_, K> {
            fn fmt(&self, f: &mut fmt::Formatter<'_>) -> fmt::Result {
                f.debug_struct(stringify!($iter)).field("left", &self.left).finish_non_exhaustive()
            }
        }
    };
}

/// What such a type has if its entries are ranges of keys, and a peer can be sent the list. `item` makes an entry what callers see.
macro_rules! sent_list {
    ($list:ident of $item:ident by $iter:ident, $iterate:literal, $iteration:literal) => {
        impl<K> $list<K> {
            /// The list, to send to a peer. `mst.h` has it byte by byte.
            pub fn as_bytes(&self) -> &[u8] {
                &self.list
            }

            /// The same, by value.
            pub fn into_bytes(self) -> Vec<u8> {
                self.list
            }
        }

        impl<K> Clone for $list<K> {
            fn clone(&self) -> Self {
                Self::of_list(self.list.clone())
            }
        }

        impl<K> PartialEq for $list<K> {
            fn eq(&self, other: &Self) -> bool {
                self.list == other.list
            }
        }

        impl<K> Eq for $list<K> {}

        impl<K: Key> fmt::Debug for $list<K> {
            fn fmt(&self, f: &mut fmt::Formatter<'_>) -> fmt::Result {
                f.debug_list().entries(self).finish()
            }
        }

        impl<K: Key> $list<K> {
            #[doc = $iterate]
            pub fn iter(&self) -> $iter<'_, K> {
                $iter { list: &self.list, at: 0, left: self.len(), key: std::marker::PhantomData }
            }
        }

        #[doc = $iteration]
        pub struct $iter<'a, K> {
            list: &'a [u8],
            at: usize,
            left: usize,
            key: std::marker::PhantomData<fn() -> K>,
        }

        impl<'a, K: Key> Iterator for $iter<'a, K> {
            type Item = $item<'a, K>;

            fn next(&mut self) -> Option<$item<'a, K>> {
                let entry = crate::sys::next_range(self.list, &mut self.at).expect("it was read when it came")?;
                self.left -= 1;
                Some($list::item(entry))
            }

            fn size_hint(&self) -> (usize, Option<usize>) {
                (self.left, Some(self.left))
            }
        }
    };
}

pub(crate) use {keyed_list, sent_list};
