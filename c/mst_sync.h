/* A sync for a program that keeps its rows elsewhere, as in a database: the library has their digests alone, in a Merkle search tree in memory. A
 * side of a sync is such a tree, and syncs with others and with replicas (mst_replica.h) by messages whose cost is what differs.
 *
 * The program tells its side of each row that it writes (mst_sync_set) and takes away (mst_sync_remove), at its start of all rows. What makes one
 * value of two is the program's own: in a replica the greater stays. Neither the order of the values nor how several are grouped may matter, and
 * two equal values must give that value.
 *
 * The statuses, what a null pointer and a length answer, and what the caller owes are those of mst.h, with a side in the place of a tree; but for
 * those of mst_replica.h and one below. A call that doesn't answer MST_DONE leaves all as it was, but where its comment says otherwise.
 *
 * A sync, of a side `a` that asks and a side `b` that answers, on whatever carries bytes (each message whole, in order):
 *
 *     a: mst_sync_ask(&a, &len); copy the message of len bytes out by mst_sync_message(&a, out, len, &len), and send it
 *     b: mst_sync_answer(&b, question, question_len, &len, &list_len); where it answers MST_NEEDS_ROWS, copy the list out by
 *        mst_sync_list(&b, out, list_len, &list_len), look these rows up, and hand them in by mst_sync_answer_with; copy the message out, and send
 *        it back, whatever the status but MST_NO_MEMORY, MST_BAD_ARGUMENT and MST_NEEDS_ROWS, which make no reply
 *     a: mst_sync_take(&a, reply, reply_len, &len, &list_len): where len isn't 0, copy the message out, send it, and so on; where it is 0, copy
 *        the rows that came out by mst_sync_list, join each with the row of its key, and tell the side by mst_sync_set what the row then is
 *
 * `b` keeps nothing between messages that the next needs, so that it may serve many. For both ways, do the same with the sides exchanged. Either side
 * may be a replica. The bytes of the messages are those of docs/WIRE.md, where keys and values are byte strings; a refusal is `01 ff`. The packages for
 * Rust and Python send each after its length in eight bytes, the lowest first, and end a catch-up by a message of no bytes.
 *
 * What is needed is a list of rows of mst.h, over which mst_rows_next goes, though its entries are none. The key of an entry is the first key of which a
 * row is needed. Its value says where the keys end:
 *
 *     a byte 0                           nowhere
 *     a byte 1, and bytes after it       below these bytes
 *     a byte 2                           with the first: this one key is needed
 *
 * In SQL, where keys are in the order of their bytes: `key >= first`, `key >= first AND key < end`, `key = first`. All entries of a list are of the third
 * kind, or none is. They come in any order, and those of a hostile peer may overlap: look each row up once.
 *
 * A peer may send any bytes: the calls are safe, what comes are rows at keys that were asked for, and what they say is the peer's. Bound what you take,
 * as the head of mst_replica.h says, and how many rows you look up. To let go of a catch-up whose peer broke off, give mst_sync_take no bytes, which
 * answers MST_MALFORMED and ends it; or begin anew by mst_sync_ask. */
#ifndef MST_SYNC_H
#define MST_SYNC_H

#include "mst_replica.h"

#ifdef __cplusplus
extern "C" {
#endif

/* A further status. */
enum {
    MST_NEEDS_ROWS = 8 /* the reply needs rows, or more rows than were handed in */
};

/* A handle: a tree of digests with the catch-up that it is in, if any, and the message and the list that it keeps; or none. It has none when its one
 * member is null, as the initializer MST_NO_SYNC makes it; a handle whose member was never set must not be given to a call. */
struct mst_sync { void *at; };
#define MST_NO_SYNC {0}

/* Gives a handle that has no side one without keys; mst_sync_free lets it go. Its settings are those of mst_replica_new, with which it syncs. Where
 * others may choose keys, take mst_sync_new_with and a key that they don't know. MST_BAD_ARGUMENT where the handle has a side; MST_NO_MEMORY. One
 * request for memory. */
int mst_sync_new(struct mst_sync *out);

/* The same with a key of SipHash, a level base from 1 to 255 and a page format of 1 or 2, as of mst_replica_new_with, whose comment says who has them in
 * common. MST_BAD_ARGUMENT for any other base or format, too; MST_NO_MEMORY. One request for memory. */
int mst_sync_new_with(struct mst_sync *out, const uint8_t key[16], uint8_t level_base, uint8_t page_format);

/* Lets the side of a handle go, with its catch-up, its message and its list, and leaves the handle without one, so that to free it twice does no harm; a
 * null pointer does none either. Time in proportion to the keys. */
void mst_sync_free(struct mst_sync *sync);

/* Sets a key to the digest of a value. Both may be empty, and have any bytes. The key is copied and kept; the value is copied, hashed and let go.
 * MST_NO_MEMORY; MST_BAD_ARGUMENT where the handle has no side. Time in proportion to the logarithm of the number of keys, on average, and to the lengths
 * of key and value. */
int mst_sync_set(struct mst_sync *sync, const uint8_t *key, size_t key_len, const uint8_t *value, size_t value_len);

/* Takes a key out. A peer that has it brings it back, unless a value says that it was removed. MST_ABSENT where there is no such key; MST_NO_MEMORY, since
 * the key is copied first; MST_BAD_ARGUMENT. Time as for mst_sync_set. */
int mst_sync_remove(struct mst_sync *sync, const uint8_t *key, size_t key_len);

/* Writes the digest of the value at a key. MST_ABSENT where there is no such key; MST_NO_MEMORY, since the key is copied first, and let go again;
 * MST_BAD_ARGUMENT. It hashes nothing. Time as for mst_sync_set. */
int mst_sync_find(struct mst_sync *sync, const uint8_t *key, size_t key_len, uint8_t digest[16]);

/* Writes how many keys there are. It counts them, in time in proportion to the tree, and takes memory for the path on which it goes. MST_NO_MEMORY;
 * MST_BAD_ARGUMENT. */
int mst_sync_len(struct mst_sync *sync, size_t *out);

/* Writes the root hash: that of a replica with these rows and settings. It hashes the pages that changed since the last call, and takes no memory.
 * MST_BAD_ARGUMENT where the handle has no side. */
int mst_sync_root_hash(struct mst_sync *sync, uint8_t out[16]);

/* Copies the message that the side keeps to `out`, and writes how many bytes it has, which is 0 where it keeps none; it is kept until a call below keeps
 * another or none. MST_TOO_SHORT; MST_BAD_ARGUMENT. It takes no memory. */
int mst_sync_message(struct mst_sync *sync, uint8_t *out, size_t out_len, size_t *needed);

/* The same of the list that the side keeps: the rows that came, in the order of their keys, or what is needed. It is kept until mst_sync_take keeps rows or
 * mst_sync_answer keeps what is needed: copy it before. */
int mst_sync_list(struct mst_sync *sync, uint8_t *out, size_t out_len, size_t *needed);

/* Begins a catch-up, in place of one that is under way, and keeps its first question as the message, whose length is written. The tree and the list stay.
 * MST_NO_MEMORY; MST_BAD_ARGUMENT. It counts the keys, as mst_sync_len does. */
int mst_sync_ask(struct mst_sync *sync, size_t *message_len);

/* Takes the reply to the question that was asked last. Where the catch-up asks on, it keeps the next question as the message, writes its length, which
 * isn't 0, and a *list_len of 0. If all came, the catch-up is over: it writes a length of 0, keeps the rows as the list, also where there is none, and
 * writes its length. These are the peer's rows at keys that the tree lacks or has with another digest. The tree doesn't change: mst_sync_set does that.
 *
 * MST_ABSENT where no catch-up is under way. MST_MALFORMED where the bytes are no reply to what was asked, MST_REFUSED where the peer refused, and
 * MST_NO_MEMORY: the catch-up is over then, no message is kept, and the list is as before; begin again by mst_sync_ask. MST_MALFORMED also comes of an
 * honest peer and of a peer without end, as mst_replica_take says. MST_BAD_ARGUMENT, also where `message_len` and `list_len` are one
 * pointer. But for MST_DONE, *message_len and *list_len are as before.
 *
 * It hashes the pages that lack a digest, looks up each key and page that came, and takes memory in proportion to the bytes that came, and at the end
 * once more for the list. */
int mst_sync_take(struct mst_sync *sync, const uint8_t *reply, size_t reply_len, size_t *message_len, size_t *list_len);

/* Answers a question by the tree: keeps the reply as the message, and writes its length. MST_NEEDS_ROWS where it asks for rows: the list then says which, its
 * length is written, and the message stays. MST_MALFORMED where the bytes are no question, and MST_OTHER_SETTINGS where a side with other settings asks: the
 * message is then a refusal, whose length is written, and is to be sent too. MST_NO_MEMORY, where the message stays; MST_BAD_ARGUMENT, also where
 * `message_len` and `list_len` are one pointer. The map stays, pages that lack a digest get it, and a catch-up that this side is in goes on, but its message
 * is lost: copy it before. But for MST_NEEDS_ROWS the list stays, and *list_len; *message_len is written where there is a message to be sent.
 *
 * A reply ends by 64 MiB, with the entry that reaches them. Time as for mst_replica_answer; for the first question of a catch-up it counts the keys, as
 * mst_sync_len does. */
int mst_sync_answer(struct mst_sync *sync, const uint8_t *question, size_t question_len, size_t *message_len, size_t *list_len);

/* Answers a question for which mst_sync_answer needed rows, by rows that the caller looked up: keeps the reply as the message, and writes its length. The rows
 * come as a list of rows of mst.h that ascend strictly by key, in whatever order they are needed. The reply ends with the entry that brings it to most_bytes
 * (some rows take fewer bytes in it than in the list), and the peer asks for the rest.
 *
 * Where `is_all` isn't 0, the list has all rows that are needed, and those that it lacks aren't there. Where it is 0, it has the first of them: where keys
 * are needed, the rows of the first entries; where ranges are, all rows that are needed from the least key to the last one in the list. MST_NEEDS_ROWS
 * where these don't reach as far as the reply does: hand in more of them, or take a lesser most_bytes. (A key that is needed and isn't there can be told
 * only where `is_all` isn't 0.)
 *
 * MST_MALFORMED, MST_OTHER_SETTINGS and MST_NO_MEMORY as of mst_sync_answer. MST_BAD_ARGUMENT also where the rows are no list of rows or don't ascend, and
 * where the question is the first of a catch-up, which needs no rows. The message and *message_len stay where there is nothing to be sent; the tree and
 * the list stay. Time and memory in proportion to the rows, which are hashed, and to the reply. */
int mst_sync_answer_with(struct mst_sync *sync, const uint8_t *question, size_t question_len, const uint8_t *rows, size_t rows_len, int is_all,
                         size_t most_bytes, size_t *message_len);

#ifdef __cplusplus
}
#endif
#endif
