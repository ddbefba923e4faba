/* Two stores that come to hold the same keys. They give each other bytes alone: page ranges, the ranges of keys to ask for, and the
 * rows in them. */
#include <stdio.h>
#include <stdlib.h>
#include <string.h>

#include "mst.h"

enum { KEYS = 1000, KEY_LEN = 8, VALUE_LEN = 16 };

/* A store: values by number of key, empty where there is none, and the tree over them. */
struct store {
    char values[KEYS][VALUE_LEN];
    struct mst_tree tree;
};

/* Bytes on their way from one store to the other. */
struct message {
    uint8_t *bytes;
    size_t len;
};

static void check(int status) {
    if (status == MST_DONE) return;
    fprintf(stderr, "status %d\n", status);
    exit(1);
}

/* A message of this many bytes more, which are still to be written. */
static void grow(struct message *message, size_t len) {
    message->bytes = realloc(message->bytes, message->len + len);
    if (!message->bytes) exit(1);
    message->len += len;
}

static void put(struct store *store, int number, const char *value) {
    char key[KEY_LEN + 1];
    snprintf(key, sizeof key, "key%05d", number);
    snprintf(store->values[number], VALUE_LEN, "%s", value);
    check(mst_tree_upsert(&store->tree, (const uint8_t *)key, KEY_LEN, (const uint8_t *)value, strlen(value)));
}

/* The page ranges of a store. The first call says how many bytes they take. */
static struct message page_ranges(struct store *store) {
    struct message list = {0};
    size_t len;
    if (mst_tree_page_ranges(&store->tree, NULL, 0, &len) != MST_TOO_SHORT) exit(1);
    grow(&list, len);
    check(mst_tree_page_ranges(&store->tree, list.bytes, list.len, &len));
    return list;
}

/* The ranges of keys to ask the peer for. The peer's bytes may be any: MST_MALFORMED says that they are no page ranges. */
static struct message difference(struct message own, struct message peer) {
    struct message asked = {0};
    size_t len;
    int status = mst_diff(own.bytes, own.len, peer.bytes, peer.len, NULL, 0, &len);
    if (status != MST_TOO_SHORT) check(status);
    grow(&asked, len);
    check(mst_diff(own.bytes, own.len, peer.bytes, peer.len, asked.bytes, asked.len, &len));
    return asked;
}

/* The order of keys: byte by byte, and each before those that it begins. */
static int compare(const char *key, const uint8_t *other, size_t other_len) {
    int order = memcmp(key, other, other_len < KEY_LEN ? other_len : KEY_LEN);
    return order ? order : (KEY_LEN > other_len) - (KEY_LEN < other_len);
}

/* Adds a row to a message: the key, how long the value is in one byte, and the value. */
static void add_row(struct message *rows, const char *key, const char *value) {
    size_t len = strlen(value), at = rows->len;
    grow(rows, KEY_LEN + 1 + len);
    memcpy(rows->bytes + at, key, KEY_LEN);
    rows->bytes[at + KEY_LEN] = (uint8_t)len;
    memcpy(rows->bytes + at + KEY_LEN + 1, value, len);
}

/* The rows of a store in the ranges that a peer asks for. */
static struct message rows_in(struct store *store, struct message asked) {
    struct message rows = {0};
    struct mst_range range;
    size_t at = 0;
    int status;
    while ((status = mst_ranges_next(asked.bytes, asked.len, &at, &range)) == MST_DONE) {
        int number;
        for (number = 0; number < KEYS; number++) {
            char key[KEY_LEN + 1];
            snprintf(key, sizeof key, "key%05d", number);
            if (!*store->values[number] || compare(key, range.first, range.first_len) < 0) continue;
            if (compare(key, range.last, range.last_len) <= 0) add_row(&rows, key, store->values[number]);
        }
    }
    if (status != MST_ABSENT) check(status);
    return rows;
}

/* Takes the rows that a peer sent, and says how many of them are new. Of two values of a key the greater stays. */
static int take(struct store *store, struct message rows) {
    size_t at = 0, len;
    int number, came = 0;
    for (; at < rows.len; at += KEY_LEN + 1 + len) {
        char key[KEY_LEN + 1] = {0}, value[VALUE_LEN] = {0};
        if (rows.len - at <= KEY_LEN) exit(1);
        len = rows.bytes[at + KEY_LEN];
        if (len >= VALUE_LEN || len > rows.len - at - KEY_LEN - 1) exit(1);
        memcpy(key, rows.bytes + at, KEY_LEN);
        memcpy(value, rows.bytes + at + KEY_LEN + 1, len);
        if (sscanf(key, "key%5d", &number) != 1 || number < 0 || number >= KEYS) exit(1);
        if (strcmp(value, store->values[number]) <= 0) continue;
        put(store, number, value);
        came++;
    }
    return came;
}

/* Brings what the peer has in the ranges in which the two differ. */
static int pull(struct store *store, struct store *peer) {
    struct message own = page_ranges(store);
    struct message others = page_ranges(peer);      /* sent by the peer */
    struct message asked = difference(own, others); /* sent to the peer */
    struct message rows = rows_in(peer, asked);     /* sent by the peer */
    int came = take(store, rows);
    free(own.bytes);
    free(others.bytes);
    free(asked.bytes);
    free(rows.bytes);
    return came;
}

static void print_root(struct store *store) {
    uint8_t root[16];
    int i;
    check(mst_tree_root_hash(&store->tree, root));
    for (i = 0; i < 16; i++) printf("%02x", root[i]);
    puts("");
}

int main(void) {
    static struct store a, b;
    int number, turn, to_a = 0, to_b = 0;
    check(mst_tree_new(&a.tree));
    check(mst_tree_new(&b.tree));
    for (number = 0; number < KEYS; number++) {
        if (number % 10 != 3) put(&a, number, number == 500 ? "newer" : "known");
        if (number % 100 != 7) put(&b, number, number == 42 ? "newer" : "known");
    }
    for (turn = 0; turn < 2; turn++) {
        to_a += pull(&a, &b);
        to_b += pull(&b, &a);
    }
    printf("%d rows came to a, %d to b\n", to_a, to_b);
    print_root(&a);
    print_root(&b);
    mst_tree_free(&a.tree);
    mst_tree_free(&b.tree);
    return 0;
}
