/* Merkle search trees: a map from byte strings to the digests of byte strings, whose root hash depends on the map and on the settings
 * of the tree alone, and what two stores need to bring each other up to date by the ranges of their pages, one for some sixteen keys.
 *
 * Every call but mst_tree_free answers one of the statuses below, and none aborts. A call that doesn't answer MST_DONE leaves the map
 * as it was, and what it would write to; but where it answers MST_TOO_SHORT, *needed is written, and where mst_tree_upsert_rows is
 * refused memory, the rows in front are set, and *done tells how many. A null pointer where the call needs
 * something to point to is MST_BAD_ARGUMENT, and so is a length above PTRDIFF_MAX; where a length is 0, its pointer may be null.
 *
 * What the caller owes, since no call can test it: a length is at most that of the memory behind its pointer; a handle is changed
 * by these calls alone, is copied by mst_tree_clone and not by `=`, and is given to one call at a time, by mst_tree_len and
 * mst_tree_clone too (it may go from thread to thread, where a lock, or the start or the end of a thread, orders the calls; lists may be
 * read by several at once); what a call writes to overlaps nothing else that the call is given; malloc, realloc and free are those of
 * one allocator, whose blocks are aligned to each power of two up to 16 that divides their size; and no call is made from a signal
 * handler, or from the forked child of a process with threads.
 *
 * The tree is that of Auvolat and Taïani, "Merkle Search Trees: Efficient State-Based CRDTs in Open Networks". */
#ifndef MST_H
#define MST_H

#include <stddef.h>
#include <stdint.h>

#ifdef __cplusplus
extern "C" {
#endif

/* The version of this header. */
#define MST_VERSION "0.2.0"

/* The version of the library that the program runs with, a text as MST_VERSION, which stays. */
const char *mst_version(void);

enum {
    MST_DONE = 0,         /* the call did what it is for */
    MST_NO_MEMORY = 1,    /* out of memory; the same call may be made again */
    MST_MALFORMED = 2,    /* the bytes are no list of the kind that the call takes, or its rows don't ascend where they have to */
    MST_TOO_SHORT = 3,    /* `out` is too short, and is as before; *needed says how many bytes it takes */
    MST_BAD_ARGUMENT = 4, /* an argument isn't one that the call takes */
    MST_ABSENT = 5        /* there is no such key, or no further range or row */
};

/* A handle: a tree, or none. It has none when its one member is null, as the initializer MST_NO_TREE makes it; a handle whose member
 * was never set must not be given to a call. */
struct mst_tree { void *at; };
#define MST_NO_TREE {0}

/* Gives a handle that has no tree the empty tree; mst_tree_free lets it go. Keys and values are hashed by SipHash-2-4-128 under the
 * key of 16 zero bytes, the level base is 16 and the page format 1, so that its root hashes are those of the Rust crate
 * merkle-search-tree for keys and values whose `Hash` feeds their bytes alone. Where others may choose keys, take mst_tree_new_with and
 * a key that they don't know: under a known key they can choose keys that all lie on one page, and then each call takes time in
 * proportion to the number of keys. MST_BAD_ARGUMENT where the handle has a tree; MST_NO_MEMORY. One request for memory. */
int mst_tree_new(struct mst_tree *out);

/* The same with a key of SipHash for keys and values (pages are hashed under the zero key always), a level base and a page format.
 * Peers that compare trees have all three in common: mst_diff can't tell that they haven't, and asks for far too much. The level
 * base is from 1 to 255: from 2 to 128, about one key in that many is above level 0, so that a lesser base makes more and smaller
 * pages; about one in 256 stands above level 1, whatever the base. The page format is 1, or 2, in which what a page digest is made
 * of can be read in one way only: take 2 where no peer needs root hashes of the Rust crate. MST_BAD_ARGUMENT for any other base or
 * format, too; MST_NO_MEMORY. One request for memory. */
int mst_tree_new_with(struct mst_tree *out, const uint8_t key[16], uint8_t level_base, uint8_t page_format);

/* How the keys of a tree are fed to SipHash, whose digest tells the level of a key. */
enum {
    MST_FEED_BYTES = 0,  /* the bytes of the key alone */
    MST_FEED_TEXT = 1,   /* its bytes and a byte 0xff, as `Hash` of Rust feeds a `str` or a `String` */
    MST_FEED_VECTOR = 2  /* the number of its bytes (a number as in a list, below) and its bytes, as it feeds a `[u8]` or a `Vec<u8>` */
};

/* The same with a way of feeding keys, which peers have in common too; mst_tree_new and mst_tree_new_with take MST_FEED_BYTES. In the
 * page format 1 a tree with MST_FEED_TEXT has the root hashes of the Rust crate for keys of the type `String` under its own SipHasher,
 * and one with MST_FEED_VECTOR those for `Vec<u8>`. What is fed of a value is the caller's: of a `u64` it is its eight bytes, the
 * lowest first, and of a `String` its bytes and a byte 0xff. Copies and loads keep the way. MST_BAD_ARGUMENT for any other way, too;
 * MST_NO_MEMORY. One request for memory. */
int mst_tree_new_as(struct mst_tree *out, const uint8_t key[16], uint8_t level_base, uint8_t page_format, uint8_t key_feed);

/* Gives `out`, which has no tree, a copy of the tree and of the digests that its pages have; mst_tree_free lets it go.
 * MST_BAD_ARGUMENT where `tree` has none or `out` has one; MST_NO_MEMORY. Time and memory in proportion to the tree. */
int mst_tree_clone(struct mst_tree *tree, struct mst_tree *out);

/* Lets the tree of a handle go, and leaves the handle without one, so that to free it twice does no harm; a null pointer does
 * none either. Time in proportion to the tree. */
void mst_tree_free(struct mst_tree *tree);

/* Sets a key to the digest of a value. Both may be empty, and have any bytes. The key is copied; the value is hashed where it lies,
 * and not kept. MST_NO_MEMORY; MST_BAD_ARGUMENT where the handle has no tree. Time in proportion to the logarithm of the number of
 * keys, on average, and to the lengths of key and value. */
int mst_tree_upsert(struct mst_tree *tree, const uint8_t *key, size_t key_len, const uint8_t *value, size_t value_len);

/* The same, with the digest of the value as the caller has it, by whatever hash function: 16 bytes, which peers that compare trees make
 * in one way. MST_NO_MEMORY; MST_BAD_ARGUMENT. Time as for mst_tree_upsert, and none for the value. */
int mst_tree_upsert_digest(struct mst_tree *tree, const uint8_t *key, size_t key_len, const uint8_t digest[16]);

/* Sets the rows of a list of rows (below) one after the other, each as mst_tree_upsert does, and writes how many were set. They come in
 * any order, over what the tree has, and of rows with one key the last stays. MST_NO_MEMORY if memory runs out for a row: *done rows
 * in front of it were set, and neither it nor those after it; the same call may be made again. MST_MALFORMED where it is no list of
 * rows, and then none is set; MST_BAD_ARGUMENT. The list is read twice and not kept. Time and memory for each row as for
 * mst_tree_upsert; where rows that ascend are to be the whole map, mst_tree_load takes less of both. */
int mst_tree_upsert_rows(struct mst_tree *tree, const uint8_t *rows, size_t rows_len, size_t *done);

/* Takes a key out. MST_ABSENT where the tree has no such key, and then it is as before, digests included; MST_NO_MEMORY, since the
 * key is copied first; MST_BAD_ARGUMENT. Time as for mst_tree_upsert. */
int mst_tree_remove(struct mst_tree *tree, const uint8_t *key, size_t key_len);

/* Makes these rows the map of a tree, in place of the one that it has; the key of SipHash, the level base and the page format stay.
 * The rows come as a list of rows (below) and ascend strictly by key, as memcmp orders them and each key before those that it begins;
 * MST_MALFORMED where they don't, or where it is no such list. MST_NO_MEMORY; MST_BAD_ARGUMENT. Each row is read once, and each page
 * written once, with a copy of each key; the list isn't kept. Until it is done there is memory for both trees and once more for the
 * keys, and the next root hash hashes every page. */
int mst_tree_load(struct mst_tree *tree, const uint8_t *rows, size_t rows_len);

/* The same of a list of digests (below), as mst_tree_digests writes it: so a tree is kept between runs without its values.
 * MST_MALFORMED where the keys don't ascend, or where it is no such list; MST_NO_MEMORY; MST_BAD_ARGUMENT. Time and memory as for
 * mst_tree_load. */
int mst_tree_load_digests(struct mst_tree *tree, const uint8_t *list, size_t list_len);

/* Writes how many keys a tree has. It counts them, in time in proportion to the tree, and takes memory for the path on which it goes.
 * MST_NO_MEMORY; MST_BAD_ARGUMENT. */
int mst_tree_len(struct mst_tree *tree, size_t *out);

/* Writes the digest of the value at a key. MST_ABSENT where the tree has no such key; MST_NO_MEMORY, since the key is copied first, and
 * let go again; MST_BAD_ARGUMENT. It hashes nothing, and the tree is as before. Time in proportion to the logarithm of the number of
 * keys, on average, and to the length of the key. */
int mst_tree_find(struct mst_tree *tree, const uint8_t *key, size_t key_len, uint8_t digest[16]);

/* Writes the root hash. Trees of one map and with the same settings have one root hash, in whatever order their keys came. It hashes
 * the pages that changed since the last call, after which none is without a digest, and takes no memory. To these pages an upsert adds
 * at most L + K + 1, where L is the level of the root page then and K that of the key, and a removal at most L + 1, where L is the level
 * of the root page before. MST_BAD_ARGUMENT where the handle has no tree. */
int mst_tree_root_hash(struct mst_tree *tree, uint8_t out[16]);

/* Writes the page ranges of a tree as a list (below), which may be sent to a peer as it is, and how many bytes they are. To learn
 * that number alone, give an `out_len` of 0, which answers MST_TOO_SHORT. It hashes what mst_tree_root_hash would, where it answers
 * MST_TOO_SHORT or MST_NO_MEMORY too. MST_TOO_SHORT; MST_NO_MEMORY; MST_BAD_ARGUMENT. Time and memory in proportion to the list; where
 * its length alone is asked for, time in proportion to the number of pages, and one request for memory, for the way down to them. */
int mst_tree_page_ranges(struct mst_tree *tree, uint8_t *out, size_t out_len, size_t *needed);

/* Writes the keys of a tree in their order, each with the digest of its value, as a list of digests (below), and how many bytes that
 * is (an `out_len` of 0 as above). It hashes nothing, and the tree is as before. MST_TOO_SHORT; MST_NO_MEMORY; MST_BAD_ARGUMENT. Time
 * and memory in proportion to the list, which is made also where its length alone is asked for. */
int mst_tree_digests(struct mst_tree *tree, uint8_t *out, size_t out_len, size_t *needed);

/* Writes the pages of a tree as they are, each before those below it, and their keys, as a list of pages (below), and how many bytes that
 * is (an `out_len` of 0 as above): for a picture of the tree, or for tests. It hashes nothing, so that a page which changed since the last
 * root hash has no digest in the list, and the tree is as before. MST_TOO_SHORT; MST_NO_MEMORY; MST_BAD_ARGUMENT. Time and memory as for
 * mst_tree_digests. */
int mst_tree_pages(struct mst_tree *tree, uint8_t *out, size_t out_len, size_t *needed);

/* Compares two lists of page ranges, one's own and a peer's, and writes the ranges of keys to ask the peer for, as a list of key
 * ranges, and how many bytes that is (an `out_len` of 0 as above). The ranges ascend, and no two meet. They may hold many more keys
 * than differ, and there may be none though the root hashes differ: pulls by turns go on until the root hashes are equal. The peer's
 * list may be any bytes. MST_TOO_SHORT; MST_MALFORMED where one of them is no list of page ranges; MST_NO_MEMORY; MST_BAD_ARGUMENT.
 * No key is copied: memory in proportion to the number of ranges of both lists and to the answer, and time in proportion to both lists
 * but for a sort of the ranges in which they differ: as much where the length alone is asked for. */
int mst_diff(const uint8_t *local, size_t local_len, const uint8_t *peer, size_t peer_len, uint8_t *out, size_t out_len,
             size_t *needed);

/* A range of a list: its first and its last key, both in it, in the order of memcmp with each key before those that it begins, and the
 * 16 bytes of its page's digest (null in a list of key ranges). The pointers are into the list. */
struct mst_range {
    const uint8_t *first;
    size_t first_len;
    const uint8_t *last;
    size_t last_len;
    const uint8_t *digest;
};

/* Goes to the next range of a list of page ranges or key ranges, without copying or taking memory. *at is where it stands: 0 before
 * the first, where the whole list is read once, and then what the call before left there. MST_ABSENT after the last; MST_MALFORMED
 * where a mark of such a list and a number don't stand in front, at 0 also where the bytes are no such list (that a first key is above
 * a last one isn't looked for), and at a place within them where no range of the list's kind begins; MST_BAD_ARGUMENT where *at is
 * beyond the end of bytes that have such a front. At a place that no call left there it is as safe, but may answer a range that isn't
 * one of the list. At 0 it takes time in proportion to the number of ranges, and at each later place a time that is the same
 * whatever the list and its keys: going over a list reads the lengths in it twice, and its keys never. */
int mst_ranges_next(const uint8_t *list, size_t list_len, size_t *at, struct mst_range *out);

/* A row of a list: its key and its value, which in a list of digests is the 16 bytes of digest. The pointers are into the list. */
struct mst_row {
    const uint8_t *key;
    size_t key_len;
    const uint8_t *value;
    size_t value_len;
};

/* Goes to the next row of a list of rows or of digests, as mst_ranges_next goes to the next range, with its statuses and in its time: so a
 * list that a peer sent is read without a reader of one's own. Whether the keys ascend isn't looked for, which mst_tree_load does and
 * mst_tree_load_digests. */
int mst_rows_next(const uint8_t *list, size_t list_len, size_t *at, struct mst_row *out);

/* Lists, byte by byte. A number is eight bytes, the lowest first. A string is its length, a number, and its bytes.
 *
 *   page ranges   the four bytes "MSTp", how many ranges there are, and each range: first key, last key, 16 bytes of digest
 *   key ranges    the four bytes "MSTk", how many ranges there are, and each range: first key, last key
 *   digests       the four bytes "MSTd", how many keys there are, and each key with the 16 bytes of the digest of its value
 *   rows          the four bytes "MSTr", how many rows there are, and each row: key, value
 *   pages         the four bytes "MSTt", how many pages and keys there are, and each of them: a page is a byte 1, or 2 where it is the high
 *                 page of another, a byte that is its level, a byte 0, or 1 and the 16 bytes of its digest where it has one, and how many
 *                 keys stand on it; a key is a byte 0 and the key
 *
 * Keys and values are strings. In a list of page ranges no first key is above its last key; a list of key ranges that a peer sent may
 * have one whose first key is above its last, and which holds no key. Nothing follows the last entry. Each list may be sent as it is.
 *
 * A list of pages begins with the root page, and a page is followed by as many keys as stand on it, and each of these may have a page of
 * its own in front of it, which holds the keys between it and the one before. Behind the last key there may be the high page, which holds
 * the keys above it. So all keys come in their order. The empty tree has one page, of level 0, without keys. */

#ifdef __cplusplus
}
#endif
#endif
