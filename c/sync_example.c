/* A replica and a store that keeps its rows itself, in an array as a database would in a table: they come to hold the same rows, message by message. */
#include <stdio.h>
#include <stdlib.h>
#include <string.h>

#include "mst_sync.h"

/* The store: its rows in the order of their keys, and their digests. */
enum { MOST_ROWS = 16 };
struct store {
    struct { char key[16], value[16]; } rows[MOST_ROWS];
    size_t count;
    struct mst_sync side;
};

static void check(int status) {
    if (status == MST_DONE) return;
    fprintf(stderr, "status %d\n", status);
    exit(1);
}

static uint8_t *room(size_t len) {
    uint8_t *bytes = malloc(len ? len : 1);
    if (!bytes) exit(1);
    return bytes;
}

static void copy_text(char out[16], const char *text) {
    size_t len = strlen(text);
    if (len > 15) exit(1);
    memset(out, 0, 16);
    memcpy(out, text, len);
}

/* Joins a value at a key: the greater stays. Then the side is told. (Of a database, this is one transaction and a call after it.) */
static void put(struct store *store, const char *key, const char *value) {
    size_t at = 0;
    while (at < store->count && strcmp(store->rows[at].key, key) < 0) at++;
    if (at == store->count || strcmp(store->rows[at].key, key)) {
        if (store->count == MOST_ROWS) exit(1);
        memmove(&store->rows[at + 1], &store->rows[at], (store->count - at) * sizeof store->rows[at]);
        copy_text(store->rows[at].key, key);
        copy_text(store->rows[at].value, "");
        store->count++;
    }
    if (strcmp(store->rows[at].value, value) < 0) copy_text(store->rows[at].value, value);
    key = store->rows[at].key;
    value = store->rows[at].value;
    check(mst_sync_set(&store->side, (const uint8_t *)key, strlen(key), (const uint8_t *)value, strlen(value)));
}

/* The bytes in the order of memcmp, each before those that it begins. */
static int compare(const uint8_t *a, size_t a_len, const uint8_t *b, size_t b_len) {
    int order = memcmp(a, b, a_len < b_len ? a_len : b_len);
    return order ? order : (a_len > b_len) - (a_len < b_len);
}

/* Whether the row of a key is needed. (In SQL, each entry is a condition.) */
static int is_needed(const uint8_t *needs, size_t needs_len, const char *key) {
    const uint8_t *bytes = (const uint8_t *)key;
    size_t len = strlen(key), at = 0;
    struct mst_row need;
    while (mst_rows_next(needs, needs_len, &at, &need) == MST_DONE) {
        int order = compare(bytes, len, need.key, need.key_len);
        if (*need.value == 2 ? order == 0 : order >= 0 && (*need.value == 0 || compare(bytes, len, need.value + 1, need.value_len - 1) < 0)) return 1;
    }
    return 0;
}

static size_t put_number(uint8_t *out, uint64_t number) {
    int at;
    for (at = 0; at < 8; at++) out[at] = (uint8_t)(number >> 8 * at);
    return 8;
}

static size_t put_text(uint8_t *out, const char *text) {
    size_t len = strlen(text);
    put_number(out, len);
    memcpy(out + 8, text, len);
    return 8 + len;
}

/* The rows that are needed, as a list of rows, which lies in `out`; its length. */
static size_t look_up(struct store *store, const uint8_t *needs, size_t needs_len, uint8_t *out) {
    size_t at, count = 0, len = 12;
    memcpy(out, "MSTr", 4);
    for (at = 0; at < store->count; at++)
        if (is_needed(needs, needs_len, store->rows[at].key)) {
            len += put_text(out + len, store->rows[at].key);
            len += put_text(out + len, store->rows[at].value);
            count++;
        }
    put_number(out + 4, count);
    return len;
}

/* The store's reply to a question, and its length. */
static uint8_t *answer(struct store *store, const uint8_t *question, size_t len, size_t *reply_len) {
    uint8_t rows[12 + MOST_ROWS * 48], *needs, *reply;
    size_t needs_len;
    int status = mst_sync_answer(&store->side, question, len, reply_len, &needs_len);
    if (status == MST_NEEDS_ROWS) {
        needs = room(needs_len);
        check(mst_sync_list(&store->side, needs, needs_len, &needs_len));
        status = mst_sync_answer_with(&store->side, question, len, rows, look_up(store, needs, needs_len, rows), 1, 1 << 26, reply_len);
        free(needs);
    }
    check(status);
    reply = room(*reply_len);
    check(mst_sync_message(&store->side, reply, *reply_len, reply_len));
    return reply;
}

/* Brings what the store has to the replica, and says how many rows these are. A pipe or a socket would stand between the two. */
static size_t fetch(struct mst_replica *replica, struct store *store) {
    size_t len, reply_len, joined = 0;
    check(mst_replica_ask(replica, &len));
    while (len) {
        uint8_t *question = room(len), *reply;
        check(mst_replica_message(replica, question, len, &len));
        reply = answer(store, question, len, &reply_len);
        check(mst_replica_take(replica, reply, reply_len, &len, &joined));
        free(question);
        free(reply);
    }
    return joined;
}

/* Joins the rows that came, and says how many they are. */
static size_t join(struct store *store, size_t list_len) {
    uint8_t *list = room(list_len);
    size_t at = 0, count = 0;
    struct mst_row row;
    check(mst_sync_list(&store->side, list, list_len, &list_len));
    for (; mst_rows_next(list, list_len, &at, &row) == MST_DONE; count++) {
        char key[16] = {0}, value[16] = {0};
        if (row.key_len > 15 || row.value_len > 15) exit(1);
        memcpy(key, row.key, row.key_len);
        memcpy(value, row.value, row.value_len);
        put(store, key, value);
    }
    free(list);
    return count;
}

/* Brings what the replica has to the store, and says how many rows these are. */
static size_t bring(struct store *store, struct mst_replica *replica) {
    size_t len, reply_len, list_len = 0;
    check(mst_sync_ask(&store->side, &len));
    while (len) {
        uint8_t *question = room(len), *reply;
        check(mst_sync_message(&store->side, question, len, &len));
        check(mst_replica_answer(replica, question, len, &reply_len));
        reply = room(reply_len);
        check(mst_replica_message(replica, reply, reply_len, &reply_len));
        check(mst_sync_take(&store->side, reply, reply_len, &len, &list_len));
        free(question);
        free(reply);
    }
    return join(store, list_len);
}

static void put_replica(struct mst_replica *replica, const char *key, const char *value) {
    check(mst_replica_put(replica, (const uint8_t *)key, strlen(key), (const uint8_t *)value, strlen(value)));
}

int main(void) {
    struct mst_replica office = MST_NO_REPLICA;
    static struct store shop;
    uint8_t roots[2][16];
    size_t at, first, second;
    check(mst_replica_new(&office));
    check(mst_sync_new(&shop.side));
    put_replica(&office, "apple", "1130 three");
    put_replica(&office, "banana", "1131 five");
    put_replica(&office, "cherry", "1132 one");
    put(&shop, "banana", "1207 seven");
    put(&shop, "dates", "1208 two");
    first = fetch(&office, &shop);
    second = bring(&shop, &office);
    printf("%zu rows came to the office, %zu to the shop\n", first, second);
    puts("the shop has");
    for (at = 0; at < shop.count; at++) printf("  %s: %s\n", shop.rows[at].key, shop.rows[at].value);
    check(mst_replica_root_hash(&office, roots[0]));
    check(mst_sync_root_hash(&shop.side, roots[1]));
    puts(memcmp(roots[0], roots[1], 16) ? "the root hashes differ" : "the root hashes are equal");
    mst_replica_free(&office);
    mst_sync_free(&shop.side);
    return 0;
}
