//! The tree.
use crate::{
    builder::Builder,
    bytes::{HashBytes, Key},
    diff::{PageRange, PageRangeSnapshot},
    digest::{Digest, PageDigest, RootHash, ValueDigest},
    granted, list,
    node::Nodes,
    sys::{self, Refused},
    NotAscending, OutOfMemory,
};
use std::{
    cell::{Cell, OnceCell},
    fmt,
    marker::PhantomData,
};

/// A Merkle search tree: a map from keys to the digests of values, whose root hash depends on the map and on the settings alone.
///
/// ```
/// use merkle_search_tree::MerkleSearchTree;
///
/// let mut tree = MerkleSearchTree::default();
/// tree.upsert("bananas", &"great");
/// tree.upsert("plátano", &"muy bien");
/// let before = *tree.root_hash();
/// tree.upsert("bananas", &"amazing");
/// assert_ne!(*tree.root_hash(), before);
/// ```
///
/// A call that isn't `try_..` ends the program where memory is refused, as Rust's collections do.
///
/// A tree goes from thread to thread, and one thread at a time uses it: it is `Send`, and not `Sync`. A `Mutex` shares it.
///
/// ```
/// use merkle_search_tree::MerkleSearchTree;
/// use std::{sync::Mutex, thread};
///
/// let tree = Mutex::new(MerkleSearchTree::<String, u64>::default());
/// thread::scope(|scope| {
///     for i in 0..4 {
///         let tree = &tree;
///         scope.spawn(move || tree.lock().unwrap().upsert(format!("key{i}"), &i));
///     }
/// });
/// assert_eq!(tree.into_inner().unwrap().len(), 4);
/// ```
///
/// ```compile_fail,E0277
/// let tree = merkle_search_tree::MerkleSearchTree::<String, u64>::default();
/// std::thread::scope(|scope| {
///     scope.spawn(|| tree.len());
/// });
/// ```
pub struct MerkleSearchTree<K, V> {
    tree: sys::Tree,
    /// The root hash, where no key was set or taken out since it was asked for.
    root_hash: Option<RootHash>,
    /// The page ranges that are lent, likewise.
    lent: OnceCell<PageRangeSnapshot<K>>,
    /// A little more than the bytes of the last list of page ranges.
    guess: Cell<usize>,
    value: PhantomData<fn(&V)>,
}

impl<K, V> Default for MerkleSearchTree<K, V> {
    fn default() -> Self {
        Builder::default().build()
    }
}

impl<K, V> MerkleSearchTree<K, V> {
    pub(crate) fn with_settings(
        key: &[u8; 16],
        level_base: u8,
        page_format: u8,
        key_feed: u8,
    ) -> Result<Self, OutOfMemory> {
        sys::Tree::new(key, level_base, page_format, key_feed).map(|tree| Self::of(tree, None))
    }

    fn of(tree: sys::Tree, root_hash: Option<RootHash>) -> Self {
        Self { tree, root_hash, lent: OnceCell::new(), guess: Cell::new(1024), value: PhantomData }
    }

    /// A copy of the tree and of the digests that its pages have; refused where memory is.
    pub fn try_clone(&self) -> Result<Self, OutOfMemory> {
        Ok(Self::of(self.tree.copy()?, self.root_hash))
    }

    /// How many keys the tree has. It counts them.
    pub fn len(&self) -> usize {
        granted(self.tree.len())
    }

    /// Whether the tree has no key. It counts them.
    pub fn is_empty(&self) -> bool {
        self.len() == 0
    }

    /// The digest of the value at a key, where the key is there.
    ///
    /// ```
    /// use merkle_search_tree::MerkleSearchTree;
    ///
    /// let mut tree = MerkleSearchTree::default();
    /// tree.upsert("kiwi", &1);
    /// tree.upsert("melon", &1);
    /// assert_eq!(tree.value_hash("kiwi"), tree.value_hash("melon"));
    /// assert_eq!(tree.value_hash("apple"), None);
    /// ```
    pub fn value_hash(&self, key: impl AsRef<[u8]>) -> Option<ValueDigest> {
        match self.tree.find(key.as_ref()) {
            Ok(digest) => Some(ValueDigest::new(Digest::new(digest))),
            Err(Refused::Absent) => None,
            Err(_) => granted(Err(OutOfMemory)),
        }
    }

    /// Whether a key is there.
    pub fn contains_key(&self, key: impl AsRef<[u8]>) -> bool {
        self.value_hash(key).is_some()
    }

    /// The root hash, where no key was set or taken out since it was asked for.
    pub fn root_hash_cached(&self) -> Option<&RootHash> {
        self.root_hash.as_ref()
    }

    /// The root hash. It hashes the pages that changed, and takes no memory.
    pub fn root_hash(&mut self) -> &RootHash {
        self.root_hash.get_or_insert_with(|| RootHash::new(PageDigest::new(self.tree.root_hash())))
    }

    /// The ranges of all pages, as the list that a peer can be sent. It hashes the pages that changed.
    pub fn page_ranges(&mut self) -> PageRangeSnapshot<K> {
        self.root_hash();
        self.list()
    }

    /// The ranges of all pages of a tree whose root hash stands.
    fn list(&self) -> PageRangeSnapshot<K> {
        let list = granted(self.tree.page_ranges(self.guess.get()));
        self.guess.set(list.len() + list.len() / 8);
        PageRangeSnapshot::of_list(list)
    }

    /// After the map has changed.
    fn changed(&mut self) {
        self.root_hash = None;
        self.lent.take();
    }
}

impl<K: Key, V> MerkleSearchTree<K, V> {
    /// The ranges of all pages; `None` where [`MerkleSearchTree::root_hash`] is to be called first.
    ///
    /// The list of them is kept until the next key is set or taken out; [`MerkleSearchTree::page_ranges`] makes it and keeps nothing.
    pub fn serialise_page_ranges(&self) -> Option<Vec<PageRange<'_, K>>> {
        self.root_hash_cached()?;
        Some(self.lent.get_or_init(|| self.list()).iter().collect())
    }

    /// A copy of the keys in their order, each with the digest of its value.
    ///
    /// ```
    /// use merkle_search_tree::MerkleSearchTree;
    ///
    /// let mut tree = MerkleSearchTree::default();
    /// for key in ["bananas1", "bananas3", "bananas4", "bananas2"] {
    ///     tree.upsert(key, &42);
    /// }
    /// let nodes = tree.nodes();
    /// let keys = nodes.iter().map(|node| node.key()).collect::<Vec<_>>();
    /// assert_eq!(keys, ["bananas1", "bananas2", "bananas3", "bananas4"]);
    /// ```
    pub fn nodes(&self) -> Nodes<K> {
        Nodes::of_list(granted(self.tree.digests()))
    }

    /// Sets a key to the digest of a value, which isn't kept.
    pub fn upsert(&mut self, key: K, value: &V)
    where
        V: HashBytes,
    {
        granted(self.try_upsert(key, value));
    }

    /// The same; refused where memory is, and then the tree is as before.
    pub fn try_upsert(&mut self, key: K, value: &V) -> Result<(), OutOfMemory>
    where
        V: HashBytes,
    {
        value.with_bytes(|value| self.tree.upsert(key.as_ref(), value))?;
        self.changed();
        Ok(())
    }

    /// Sets a key to the digest of a value, by whatever hash function: peers that compare trees make it in one way.
    pub fn upsert_digest(&mut self, key: K, digest: &ValueDigest) {
        granted(self.try_upsert_digest(key, digest));
    }

    /// The same; refused where memory is, and then the tree is as before.
    pub fn try_upsert_digest(&mut self, key: K, digest: &ValueDigest) -> Result<(), OutOfMemory> {
        self.tree.upsert_digest(key.as_ref(), digest.as_bytes())?;
        self.changed();
        Ok(())
    }

    /// Takes a key out, and says whether it was there.
    ///
    /// A removal isn't merged: a peer that has the row brings it back, unless a mark stands for its value.
    pub fn remove(&mut self, key: impl AsRef<[u8]>) -> bool {
        match self.tree.remove(key.as_ref()) {
            Ok(()) => {
                self.changed();
                true
            }
            Err(Refused::Absent) => false,
            Err(_) => granted(Err(OutOfMemory)),
        }
    }

    /// Makes these rows, which ascend strictly by the bytes of their keys, the map of the tree: one pass, without the searches that
    /// upserts make. Where they don't ascend the tree is as before.
    ///
    /// All rows are put into one list before, with the bytes of their values.
    pub fn load(&mut self, rows: impl IntoIterator<Item = (K, V)>) -> Result<(), NotAscending>
    where
        V: HashBytes,
    {
        let mut list = list::Writer::new(b"MSTr");
        for (key, value) in rows {
            value.with_bytes(|value| list.push(key.as_ref(), value, &[]));
        }
        let loaded = self.tree.load(&list.into_bytes());
        self.is_loaded(loaded)
    }

    /// The same of keys with the digests of their values, as [`MerkleSearchTree::nodes`] has them: so a tree is kept between runs.
    ///
    /// ```
    /// use merkle_search_tree::MerkleSearchTree;
    ///
    /// let mut tree = MerkleSearchTree::<String, u64>::from_iter([("kiwi".into(), 1), ("melon".into(), 2)]);
    /// let mut again = MerkleSearchTree::<String, u64>::default();
    /// again.load_digests(tree.nodes().iter().map(|node| (node.key().to_owned(), *node.value_hash()))).unwrap();
    /// assert_eq!(again.root_hash(), tree.root_hash());
    /// ```
    pub fn load_digests(&mut self, rows: impl IntoIterator<Item = (K, ValueDigest)>) -> Result<(), NotAscending> {
        let mut list = list::Writer::new(b"MSTd");
        for (key, digest) in rows {
            list.push_strings(&[key.as_ref()], digest.as_bytes());
        }
        let loaded = self.tree.load_digests(&list.into_bytes());
        self.is_loaded(loaded)
    }

    /// After a load of a list that was written here, in which nothing but the order of the keys can be refused.
    fn is_loaded(&mut self, loaded: Result<(), Refused>) -> Result<(), NotAscending> {
        match loaded {
            Ok(()) => {
                self.changed();
                Ok(())
            }
            Err(Refused::Memory) => granted(Err(OutOfMemory)),
            Err(_) => Err(NotAscending),
        }
    }
}

impl<K: Key, V: HashBytes> Extend<(K, V)> for MerkleSearchTree<K, V> {
    fn extend<T: IntoIterator<Item = (K, V)>>(&mut self, rows: T) {
        rows.into_iter().for_each(|(key, value)| self.upsert(key, &value));
    }
}

impl<K: Key, V: HashBytes> FromIterator<(K, V)> for MerkleSearchTree<K, V> {
    fn from_iter<T: IntoIterator<Item = (K, V)>>(rows: T) -> Self {
        let mut tree = Self::default();
        tree.extend(rows);
        tree
    }
}

impl<K, V> Clone for MerkleSearchTree<K, V> {
    fn clone(&self) -> Self {
        granted(self.try_clone())
    }
}

impl<K, V> fmt::Debug for MerkleSearchTree<K, V> {
    fn fmt(&self, f: &mut fmt::Formatter<'_>) -> fmt::Result {
        f.debug_struct("MerkleSearchTree").field("root_hash", &self.root_hash).finish_non_exhaustive()
    }
}
