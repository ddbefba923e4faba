/* Replicas: a map from byte strings to byte strings, held in memory with its Merkle search tree, and a sync of two of them by messages
 * whose cost is what differs. Two replicas that catch up with each other come to hold the same rows.
 *
 * Of two values under one key the greater stays: the one with the greater byte where they first differ (as memcmp orders them), or that
 * goes on where the other ends. So put in front what is to decide: eight bytes of time, the highest first, then who wrote it, then the
 * text, and the last writer wins. A value can't be taken back: for removals write a value that says so.
 *
 * The statuses, what a null pointer and a length answer, and what the caller owes are those of mst.h, with a replica in the place of a
 * tree; but for two statuses below. A call that doesn't answer MST_DONE leaves all as it was, but where its comment says otherwise.
 *
 * A sync, of a replica `a` that asks and a replica `b` that answers, on whatever carries bytes (each message whole, in order):
 *
 *     a: mst_replica_ask(&a, &len); copy the message of len bytes out by mst_replica_message(&a, out, len, &len), and send it
 *     b: mst_replica_answer(&b, question, question_len, &len); copy the message out, and send it back, whatever the status but
 *        MST_NO_MEMORY and MST_BAD_ARGUMENT, which make no reply
 *     a: mst_replica_take(&a, reply, reply_len, &len, &joined): where len isn't 0, copy the message out, send it, and so on; where it is
 *        0, a has what b had
 *
 * `b` keeps nothing between messages, so that it may serve many. For both ways, do the same with the sides exchanged. The bytes of the
 * messages are those of docs/WIRE.md, where keys and values are byte strings; a refusal is `01 ff`. The packages for Rust and Python
 * send each after its length in eight bytes, the lowest first, and end a catch-up by a message of no bytes: then the sides may be
 * exchanged over the same connection.
 *
 * A peer may send any bytes: the calls are safe, what comes are rows that were asked for, and what they say is the peer's. A peer that
 * makes up rows may go on for ever: bound how many questions you send or answer, and how many bytes a message has. Of an honest peer far
 * fewer than a thousand questions are asked, and one more for each further 64 MiB; a reply ends by 64 MiB, with the row that reaches
 * them, so that a bound on bytes is also one on the rows that can be fetched. The keys that a message spells have at most 64 times its
 * bytes. A peer that sends nothing is waited for as long as the transport waits: set a timeout. To let go of a catch-up whose peer broke
 * off, give mst_replica_take no bytes, which answers MST_MALFORMED, ends it, and leaves the rows; or begin anew by mst_replica_ask. */
#ifndef MST_REPLICA_H
#define MST_REPLICA_H

#include "mst.h"

#ifdef __cplusplus
extern "C" {
#endif

/* Further statuses. */
enum {
    MST_OTHER_SETTINGS = 6, /* the peer that asks has another key of SipHash (told where it has rows), level base or page format */
    MST_REFUSED = 7         /* the peer that was asked refused, as for other settings */
};

/* A handle: a replica with the catch-up that it is in, if any, and the message that it keeps; or none. It has none when its one member is
 * null, as the initializer MST_NO_REPLICA makes it; a handle whose member was never set must not be given to a call. */
struct mst_replica { void *at; };
#define MST_NO_REPLICA {0}

/* Gives a handle that has no replica one without rows; mst_replica_free lets it go. Keys and values are hashed by SipHash-2-4-128 under
 * the key of 16 zero bytes, the level base is 16 and the page format 1, as of mst_tree_new. Where others may choose keys, take
 * mst_replica_new_with and a key that they don't know. MST_BAD_ARGUMENT where the handle has a replica; MST_NO_MEMORY. One request for
 * memory. */
int mst_replica_new(struct mst_replica *out);

/* The same with a key of SipHash, a level base from 1 to 255 and a page format of 1 or 2, as of mst_tree_new_with. Replicas that catch up
 * have all three in common, and say so in their first message, as far as it tells: a replica without rows tells no key, so it is served
 * by one with another key too, and refused only once it has rows. MST_BAD_ARGUMENT for any other base or format, too; MST_NO_MEMORY. One
 * request for memory. */
int mst_replica_new_with(struct mst_replica *out, const uint8_t key[16], uint8_t level_base, uint8_t page_format);

/* Lets the replica of a handle go, with its catch-up and its message, and leaves the handle without one, so that to free it twice does no
 * harm; a null pointer does none either. Time in proportion to the rows. */
void mst_replica_free(struct mst_replica *replica);

/* Joins a value at a key: where there is none it is put there, and else the greater of the two stays. Both are copied, may be empty, and
 * have any bytes. MST_NO_MEMORY; MST_BAD_ARGUMENT where the handle has no replica. The place is found by halving, and the rows after a new
 * key move up by one: time in proportion to these, at a few nanoseconds each, and to the lengths. So put many rows in the order of their
 * keys, as memcmp has it: in any other order the time is in proportion to the square of their number. */
int mst_replica_put(struct mst_replica *replica, const uint8_t *key, size_t key_len, const uint8_t *value, size_t value_len);

/* Writes the value at a key, and how many bytes it has (with an `out_len` of 0 it answers MST_TOO_SHORT and that number, where the value
 * isn't empty). MST_ABSENT where there is no such key; MST_TOO_SHORT; MST_NO_MEMORY, since the key is copied first, and let go again;
 * MST_BAD_ARGUMENT. The place is found by halving. */
int mst_replica_get(struct mst_replica *replica, const uint8_t *key, size_t key_len, uint8_t *out, size_t out_len, size_t *needed);

/* Writes how many rows there are. MST_BAD_ARGUMENT where the handle has no replica. */
int mst_replica_len(struct mst_replica *replica, size_t *out);

/* Writes the root hash: that of mst_tree_root_hash for a tree of these rows with the same settings, whose keys are fed by MST_FEED_BYTES.
 * Replicas with the same rows and settings have one root hash. It hashes the pages that changed since the last call, and takes no memory.
 * MST_BAD_ARGUMENT where the handle has no replica. */
int mst_replica_root_hash(struct mst_replica *replica, uint8_t out[16]);

/* Writes all rows, in the order of their keys, as a list of rows of mst.h, over which mst_rows_next goes and which mst_tree_load takes; and
 * how many bytes it has (an `out_len` of 0 answers MST_TOO_SHORT and that number). MST_TOO_SHORT; MST_NO_MEMORY; MST_BAD_ARGUMENT. Time and
 * memory in proportion to the list, which is made also where its length alone is asked for. */
int mst_replica_rows(struct mst_replica *replica, uint8_t *out, size_t out_len, size_t *needed);

/* Copies the message that the replica keeps to `out`, and writes how many bytes it has, which is 0 where it keeps none; it is kept until a
 * call below keeps another or none. MST_TOO_SHORT; MST_BAD_ARGUMENT. It takes no memory. */
int mst_replica_message(struct mst_replica *replica, uint8_t *out, size_t out_len, size_t *needed);

/* Answers a question: keeps the reply to it as the message, and writes its length. MST_MALFORMED where the bytes are no question, and
 * MST_OTHER_SETTINGS where a side with other settings asks: the message is then a refusal, whose length is written, and is to be sent too.
 * MST_NO_MEMORY, where the message stays, and *message_len; MST_BAD_ARGUMENT. The rows stay; pages that lack a digest get it, and a
 * catch-up that this replica is in goes on, but its message is lost: copy it before. A reply ends by 64 MiB, with the entry that reaches
 * them. Time in proportion to the question, the reply and the logarithm of the number of rows, and to the pages that are hashed. */
int mst_replica_answer(struct mst_replica *replica, const uint8_t *question, size_t question_len, size_t *message_len);

/* Begins a catch-up, in place of one that is under way, and keeps its first question as the message, whose length is written. The rows
 * stay. MST_NO_MEMORY; MST_BAD_ARGUMENT. */
int mst_replica_ask(struct mst_replica *replica, size_t *message_len);

/* Takes the reply to the question that was asked last. Where the catch-up asks on, it keeps the next question as the message, writes its
 * length, which isn't 0, and a *joined of 0; the rows stay. If all that was missing came, it joins the rows that came, writes a length
 * of 0 and how many these were, and the catch-up is over.
 *
 * MST_ABSENT where no catch-up is under way. MST_MALFORMED where the bytes are no reply to what was asked, MST_REFUSED where the peer
 * refused: the catch-up is over then, no message is kept, and the rows stay. MST_MALFORMED comes of an honest peer, too, into whose
 * replica rows were put between two of its replies, so that a key came twice: begin again by mst_replica_ask. It also comes of a peer that
 * sends more than 1,000,000 replies, 2^32 rows or 2^36 bytes in one catch-up. MST_NO_MEMORY: the
 * catch-up is over, no message is kept, and *joined says how many of the rows that came are joined, the first in the order of their keys:
 * where it is 0 the rows are as they were; begin again by mst_replica_ask. MST_BAD_ARGUMENT, also where `message_len` and `joined` are one
 * pointer. But for MST_DONE, *message_len is as before, and so is *joined, but for MST_NO_MEMORY.
 *
 * What is written and put in between stays, also where it came after the question. It hashes the pages that lack a digest, looks up each
 * key and page that came, and takes memory in proportion to the bytes that came. */
int mst_replica_take(struct mst_replica *replica, const uint8_t *reply, size_t reply_len, size_t *message_len, size_t *joined);

#ifdef __cplusplus
}
#endif
#endif
