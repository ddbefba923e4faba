/* Hostile bytes to the calls of mst_replica.h, for clang's libFuzzer: tests/fuzz compiles and runs it.
 *
 * An input is steps, each a byte that says what is done, a byte that says how many bytes belong to it, and these: a row that is put into
 * one of two replicas, a question, a reply, or a step of a catch-up whose reply has a byte altered, or none. What each replica has to hold
 * is kept here once more as the list of its rows, and a status, and what is held then, have to be as the header says. At the end a catch-up
 * each way leaves both with the same rows. */
#include <stdio.h>
#include <stdlib.h>
#include <string.h>

#include "mst_replica.h"

#define WANT(test) \
    do { if (!(test)) { fprintf(stderr, "replicas.c:%d: %s\n", __LINE__, #test); abort(); } } while (0)

enum { ROOM = 1 << 18, EXCHANGES = 4096 };

struct side { struct mst_replica replica; uint8_t *rows; size_t len; };

/* ---- lists of rows */
static size_t number_at(const uint8_t *bytes) {
    uint64_t number = 0;
    int at;
    for (at = 7; at >= 0; at--) number = number << 8 | bytes[at];
    return (size_t)number;
}

struct text { const uint8_t *bytes; size_t len; };

static struct text text_at(const uint8_t *list, size_t *at) {
    struct text text = {list + *at + 8, number_at(list + *at)};
    *at += 8 + text.len;
    return text;
}

static int compare(struct text a, struct text b) {
    size_t least = a.len < b.len ? a.len : b.len;
    int order = least ? memcmp(a.bytes, b.bytes, least) : 0;
    return order ? order : (a.len > b.len) - (a.len < b.len);
}

/* The rows of a replica, in memory that is given back by `free`. */
static uint8_t *rows_of(struct mst_replica *replica, size_t *len) {
    uint8_t *rows;
    WANT(mst_replica_rows(replica, NULL, 0, len) == MST_TOO_SHORT);
    WANT(*len < ROOM && (rows = malloc(*len)));
    WANT(mst_replica_rows(replica, rows, *len, len) == MST_DONE);
    WANT(!memcmp(rows, "MSTr", 4));
    return rows;
}

/* The value that a list has at a key, and whether it is there. */
static int value_in(const uint8_t *rows, size_t len, struct text key, struct text *value) {
    size_t at = 12;
    while (at < len) {
        struct text here = text_at(rows, &at);
        *value = text_at(rows, &at);
        if (!compare(here, key)) return 1;
    }
    return 0;
}

/* The replica holds what it held. */
static void same(struct side *side) {
    size_t len;
    uint8_t *rows = rows_of(&side->replica, &len);
    WANT(len == side->len && !memcmp(rows, side->rows, len));
    free(rows);
}

/* No row is gone, no value is less, keys ascend, and at most so many rows are new: so is what a reply may do that is taken. */
static void has_grown(struct side *side, size_t most) {
    size_t len, at = 12, there = 12;
    uint8_t *rows = rows_of(&side->replica, &len);
    struct text last = {rows, 0}, old;
    WANT(number_at(rows + 4) <= number_at(side->rows + 4) + most);
    while (at < len) {
        struct text key = text_at(rows, &at), value = text_at(rows, &at);
        WANT(last.bytes == rows || compare(last, key) < 0);
        WANT(!value_in(side->rows, side->len, key, &old) || compare(old, value) <= 0);
        last = key;
    }
    while (there < side->len) {
        struct text key = text_at(side->rows, &there);
        text_at(side->rows, &there);
        WANT(value_in(rows, len, key, &old));
    }
    free(side->rows);
    side->rows = rows;
    side->len = len;
}

/* ---- steps */
static void put(struct side *side, const uint8_t *bytes, size_t len) {
    struct text key = {bytes, len / 2}, value = {bytes + len / 2, len - len / 2}, old, now;
    int was = value_in(side->rows, side->len, key, &old);
    size_t rows_len;
    uint8_t *rows;
    WANT(mst_replica_put(&side->replica, key.bytes, key.len, value.bytes, value.len) == MST_DONE);
    rows = rows_of(&side->replica, &rows_len);
    WANT(value_in(rows, rows_len, key, &now));
    WANT(!compare(now, was && compare(value, old) < 0 ? old : value));
    free(rows);
    has_grown(side, 1);
}

static void question(struct side *side, const uint8_t *bytes, size_t len) {
    static uint8_t message[ROOM];
    size_t message_len = 7, needed;
    int status = mst_replica_answer(&side->replica, bytes, len, &message_len);
    WANT(status == MST_DONE || status == MST_MALFORMED || status == MST_OTHER_SETTINGS);
    WANT(mst_replica_message(&side->replica, message, sizeof message, &needed) == MST_DONE && needed == message_len);
    WANT(status == MST_DONE || (needed == 2 && !memcmp(message, "\1\xff", 2)));
    same(side);
}

static int reply(struct side *side, const uint8_t *bytes, size_t len, size_t *message_len) {
    size_t joined = 99;
    int status = mst_replica_take(&side->replica, bytes, len, message_len, &joined);
    WANT(status == MST_DONE || status == MST_MALFORMED || status == MST_REFUSED || status == MST_ABSENT);
    if (status == MST_DONE && !*message_len) {
        has_grown(side, joined);
        return status;
    }
    WANT(joined == (status == MST_DONE ? 0 : 99));
    same(side);
    return status;
}

/* One exchange: the message of `a`, which is what it asked unless it answered since, is answered by `b`, and the reply is taken with this byte
 * altered. It answers the status, and how many bytes `a` says next. */
static int exchange(struct side *a, struct side *b, size_t at, uint8_t change, size_t *len) {
    static uint8_t asked[ROOM], answered[ROOM];
    size_t needed;
    WANT(mst_replica_message(&a->replica, asked, sizeof asked, &needed) == MST_DONE);
    (void)mst_replica_answer(&b->replica, asked, needed, len);
    WANT(mst_replica_message(&b->replica, answered, sizeof answered, &needed) == MST_DONE && needed == *len);
    if (needed) answered[at % needed] ^= change;
    return reply(a, answered, needed, len);
}

static void catch_up(struct side *a, struct side *b) {
    size_t len;
    int left = EXCHANGES;
    WANT(mst_replica_ask(&a->replica, &len) == MST_DONE);
    while (len) WANT(left-- && exchange(a, b, 0, 0, &len) == MST_DONE);
}

static void step(struct side *a, struct side *b, uint8_t kind, const uint8_t *bytes, size_t len) {
    size_t message_len = 0;
    if (kind % 8 < 3) put(kind & 8 ? a : b, bytes, len);
    if (kind % 8 == 3) question(a, bytes, len);
    if (kind % 8 == 4) reply(a, bytes, len, &message_len);
    if (kind % 8 == 5) WANT(mst_replica_ask(&a->replica, &message_len) == MST_DONE && message_len);
    if (kind % 8 == 6) exchange(a, b, len ? bytes[0] : 0, len > 1 ? bytes[1] : 0, &message_len);
    if (kind % 8 == 7) catch_up(a, b);
}

int LLVMFuzzerTestOneInput(const uint8_t *data, size_t size) {
    static const uint8_t key[16] = {1, 2, 3};
    struct side a = {MST_NO_REPLICA, NULL, 0}, b = a;
    size_t at = 1, len;
    uint8_t format = size ? data[0] % 2 + 1 : 1;
    WANT(mst_replica_new_with(&a.replica, key, 2, format) == MST_DONE && mst_replica_new_with(&b.replica, key, 2, format) == MST_DONE);
    a.rows = rows_of(&a.replica, &a.len);
    b.rows = rows_of(&b.replica, &b.len);
    for (; at + 2 <= size; at += 2 + len) {
        len = data[at + 1] < size - at - 2 ? data[at + 1] : size - at - 2;
        step(&a, &b, data[at], data + at + 2, len);
    }
    catch_up(&a, &b);
    catch_up(&b, &a);
    WANT(a.len == b.len && !memcmp(a.rows, b.rows, a.len));
    mst_replica_free(&a.replica);
    mst_replica_free(&b.replica);
    free(a.rows);
    free(b.rows);
    return 0;
}
