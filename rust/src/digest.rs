//! Digests, and the key under which keys and values are hashed.
use std::{fmt, ops::Deref};

/// A digest of `N` bytes.
#[derive(Debug, PartialEq, Eq, PartialOrd, Ord, Clone, Copy, Hash)]
pub struct Digest<const N: usize>([u8; N]);

impl<const N: usize> Digest<N> {
    /// The digest of these bytes.
    pub const fn new(digest: [u8; N]) -> Self {
        Self(digest)
    }

    /// Its bytes.
    pub const fn as_bytes(&self) -> &[u8; N] {
        &self.0
    }
}

impl<const N: usize> AsRef<[u8]> for Digest<N> {
    fn as_ref(&self) -> &[u8] {
        &self.0
    }
}

/// The digest in base64, by the standard alphabet and with padding.
impl<const N: usize> fmt::Display for Digest<N> {
    fn fmt(&self, f: &mut fmt::Formatter<'_>) -> fmt::Result {
        const ALPHABET: &[u8; 64] = b"ABCDEFGHIJKLMNOPQRSTUVWXYZabcdefghijklmnopqrstuvwxyz0123456789+/";
        for three in self.0.chunks(3) {
            let bits = three.iter().fold(0, |bits, byte| bits << 8 | u32::from(*byte)) << (8 * (3 - three.len()));
            let text = [18, 12, 6, 0].map(|at| char::from(ALPHABET[(bits >> at) as usize % 64]));
            text[..=three.len()].iter().try_for_each(|digit| write!(f, "{digit}"))?;
            f.write_str(&"=="[three.len() - 1..])?;
        }
        Ok(())
    }
}

/// The digest of a page and of all below it.
#[derive(Debug, PartialEq, Eq, Clone, Copy, Hash)]
pub struct PageDigest(Digest<16>);

impl PageDigest {
    /// The digest of these bytes.
    pub const fn new(digest: [u8; 16]) -> Self {
        Self(Digest::new(digest))
    }
}

impl From<Digest<16>> for PageDigest {
    fn from(digest: Digest<16>) -> Self {
        Self(digest)
    }
}

/// The digest of the root page. Trees with the same settings and equal root hashes have the same keys and values, while digests don't
/// collide.
#[derive(Debug, PartialEq, Eq, Clone, Copy, Hash)]
pub struct RootHash(Digest<16>);

impl RootHash {
    /// The root hash of a tree whose root page has this digest, as one that a peer sent.
    pub const fn new(page: PageDigest) -> Self {
        Self(page.0)
    }
}

/// The digest of a value.
#[derive(Debug, PartialEq, Eq, Clone, Copy, Hash)]
pub struct ValueDigest<const N: usize = 16>(Digest<N>);

impl<const N: usize> ValueDigest<N> {
    /// The digest of a value, by whatever hash function.
    pub const fn new(digest: Digest<N>) -> Self {
        Self(digest)
    }
}

macro_rules! is_a_digest {
    ($name:ident, $n:expr $(, const $parameter:ident)?) => {
        impl$(<const $parameter: usize>)? Deref for $name$(<$parameter>)? {
            type Target = Digest<$n>;
            fn deref(&self) -> &Digest<$n> {
                &self.0
            }
        }

        /// The digest in base64.
        impl$(<const $parameter: usize>)? fmt::Display for $name$(<$parameter>)? {
            fn fmt(&self, f: &mut fmt::Formatter<'_>) -> fmt::Result {
                self.0.fmt(f)
            }
        }
    };
}
is_a_digest!(PageDigest, 16);
is_a_digest!(RootHash, 16);
is_a_digest!(ValueDigest, N, const N);

pub mod siphash {
    //! The hash function of keys and values.
    use std::fmt;

    /// SipHash-2-4 with digests of 16 bytes.
    ///
    /// Where others may choose keys, take a secret key, which all replicas share: under a key that they know, they can choose keys that
    /// all lie on one page, so that each call takes time in proportion to the number of keys.
    #[derive(Clone, Default)]
    pub struct SipHasher {
        key: [u8; 16],
    }

    impl SipHasher {
        /// SipHash under this key. Trees that are compared have it in common.
        pub fn new(key: &[u8; 16]) -> Self {
            Self { key: *key }
        }

        pub(crate) fn key(&self) -> &[u8; 16] {
            &self.key
        }
    }

    /// It doesn't show the key, which may be a secret.
    impl fmt::Debug for SipHasher {
        fn fmt(&self, f: &mut fmt::Formatter<'_>) -> fmt::Result {
            f.debug_struct("SipHasher").finish_non_exhaustive()
        }
    }
}
