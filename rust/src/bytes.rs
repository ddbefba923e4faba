//! What keys and values are to a tree: bytes.
use std::hash::{Hash, Hasher};

/// A key. A tree orders keys by their bytes, and hashes these alone; equal bytes are one key.
///
/// A type of one's own names the form in which its keys are read again, and reads it from the bytes:
///
/// ```
/// use merkle_search_tree::{Key, MerkleSearchTree};
///
/// struct UserId([u8; 8]);
///
/// impl AsRef<[u8]> for UserId {
///     fn as_ref(&self) -> &[u8] {
///         &self.0
///     }
/// }
///
/// impl Key for UserId {
///     type Seen = [u8; 8];
///     fn seen(bytes: &[u8]) -> Option<&[u8; 8]> {
///         bytes.try_into().ok()
///     }
/// }
///
/// let mut tree = MerkleSearchTree::default();
/// tree.upsert(UserId(7_u64.to_be_bytes()), &"Ada");
/// assert_eq!(tree.nodes().iter().next().unwrap().key(), &[0, 0, 0, 0, 0, 0, 0, 7]);
/// ```
pub trait Key: AsRef<[u8]> {
    /// A key as it is read again, as `str` for `String`. Its bytes, by `AsRef`, are those that it was read from.
    type Seen: ?Sized + AsRef<[u8]> + 'static;

    /// The key of these bytes; `None` where they are no key, as the bytes of a peer may not be. It finds each key of this type in its own
    /// bytes: a call that doesn't panics where the key is read again.
    fn seen(bytes: &[u8]) -> Option<&Self::Seen>;
}

impl Key for String {
    type Seen = str;
    fn seen(bytes: &[u8]) -> Option<&str> {
        std::str::from_utf8(bytes).ok()
    }
}

impl Key for &str {
    type Seen = str;
    fn seen(bytes: &[u8]) -> Option<&str> {
        std::str::from_utf8(bytes).ok()
    }
}

impl Key for Vec<u8> {
    type Seen = [u8];
    fn seen(bytes: &[u8]) -> Option<&[u8]> {
        Some(bytes)
    }
}

impl Key for &[u8] {
    type Seen = [u8];
    fn seen(bytes: &[u8]) -> Option<&[u8]> {
        Some(bytes)
    }
}

impl<const M: usize> Key for [u8; M] {
    type Seen = [u8; M];
    fn seen(bytes: &[u8]) -> Option<&[u8; M]> {
        bytes.try_into().ok()
    }
}

/// The key of bytes that were found to be one before, or that a key gave.
pub(crate) fn seen_again<K: Key>(bytes: &[u8]) -> &K::Seen {
    K::seen(bytes).expect("`Key::seen` finds each key in its own bytes")
}

/// The bytes by which a value is hashed. They are the same on every platform, and the same as in C, in Python and in the proved crates:
/// those of a text or of bytes, those of a number with the lowest first, the byte 1 or 0 of a `bool`, none of `()`, and of a pair those
/// of the first and then those of the second. No length and no end mark is among them.
pub trait HashBytes {
    /// Calls `with` with the bytes.
    fn with_bytes<R>(&self, with: impl FnOnce(&[u8]) -> R) -> R;
}

macro_rules! as_they_are {
    ($($name:ty),*) => {$(
        impl HashBytes for $name {
            fn with_bytes<R>(&self, with: impl FnOnce(&[u8]) -> R) -> R {
                with(self.as_ref())
            }
        }
    )*};
}
as_they_are!(String, &str, Vec<u8>, &[u8]);

macro_rules! numbers {
    ($($name:ty),*) => {$(
        impl HashBytes for $name {
            fn with_bytes<R>(&self, with: impl FnOnce(&[u8]) -> R) -> R {
                with(&self.to_le_bytes())
            }
        }
    )*};
}
numbers!(u8, u16, u32, u64, u128, i8, i16, i32, i64, i128);

impl<const M: usize> HashBytes for [u8; M] {
    fn with_bytes<R>(&self, with: impl FnOnce(&[u8]) -> R) -> R {
        with(self)
    }
}

impl HashBytes for bool {
    fn with_bytes<R>(&self, with: impl FnOnce(&[u8]) -> R) -> R {
        with(&[u8::from(*self)])
    }
}

impl HashBytes for () {
    fn with_bytes<R>(&self, with: impl FnOnce(&[u8]) -> R) -> R {
        with(&[])
    }
}

impl<A: HashBytes, B: HashBytes> HashBytes for (A, B) {
    fn with_bytes<R>(&self, with: impl FnOnce(&[u8]) -> R) -> R {
        let mut bytes = self.0.with_bytes(<[u8]>::to_vec);
        self.1.with_bytes(|second| bytes.extend_from_slice(second));
        with(&bytes)
    }
}

/// A value that is hashed by what its [`Hash`] feeds, as the crate merkle-search-tree hashes it. That may differ between platforms and
/// releases of the compiler.
#[derive(Debug, Clone, Copy, PartialEq, Eq)]
pub struct ByHash<T>(pub T);

impl<T: Hash> HashBytes for ByHash<T> {
    fn with_bytes<R>(&self, with: impl FnOnce(&[u8]) -> R) -> R {
        let mut fed = Fed(Vec::new());
        self.0.hash(&mut fed);
        with(&fed.0)
    }
}

/// A hasher that keeps what it is fed.
struct Fed(Vec<u8>);

impl Hasher for Fed {
    fn write(&mut self, bytes: &[u8]) {
        self.0.extend_from_slice(bytes);
    }

    fn finish(&self) -> u64 {
        0
    }
}
