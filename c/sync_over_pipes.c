/* Rows in an array, as a database would have them in a table, and the tree of their digests, which catch up with another program over standard input and
 * output, such as a replica in Python or Rust, and answer it. The first argument says what they do first, `asks` or `answers`; the peer does the other.
 * The others are the rows, each KEY=VALUE; what there is at the end goes to standard error. */
#include <string.h>

#include "mst_sync.h"
#include "over_pipes.h"

/* At how many bytes a reply ends; the peer asks for the rest. */
#define MOST_OF_A_REPLY ((size_t)1 << 26)

/* The rows in the order of their keys, and their digests. What a row points to is never let go. */
struct store {
    struct mst_row *rows;
    size_t count, most;
    struct mst_sync side;
};

/* The bytes in the order of memcmp, each before those that it begins. */
static int compare(const uint8_t *a, size_t a_len, const uint8_t *b, size_t b_len) {
    int order = memcmp(a, b, a_len < b_len ? a_len : b_len);
    return order ? order : (a_len > b_len) - (a_len < b_len);
}

/* How many rows have lesser keys. */
static size_t place_of(const struct store *store, const uint8_t *key, size_t key_len) {
    size_t low = 0, high = store->count;
    while (low < high) {
        size_t middle = low + (high - low) / 2;
        if (compare(store->rows[middle].key, store->rows[middle].key_len, key, key_len) < 0)
            low = middle + 1;
        else
            high = middle;
    }
    return low;
}

static void insert(struct store *store, size_t at, const struct mst_row *row) {
    if (store->count == store->most) {
        store->most = 2 * store->most + 16;
        store->rows = realloc(store->rows, store->most * sizeof *store->rows);
        if (!store->rows) fail("memory is refused", MST_NO_MEMORY);
    }
    memmove(&store->rows[at + 1], &store->rows[at], (store->count - at) * sizeof *row);
    store->rows[at] = *row;
    store->count++;
}

/* Joins a row with the one of its key: the greater value stays. Then the side is told. (Of a database, this is one transaction and a call after it.) */
static void join(struct store *store, const struct mst_row *row) {
    size_t at = place_of(store, row->key, row->key_len);
    struct mst_row *held;
    if (at == store->count || compare(store->rows[at].key, store->rows[at].key_len, row->key, row->key_len)) insert(store, at, row);
    held = &store->rows[at];
    if (compare(held->value, held->value_len, row->value, row->value_len) < 0) *held = *row;
    check(mst_sync_set(&store->side, held->key, held->key_len, held->value, held->value_len));
}

/* Whether a row is of a need: of its one key, or below its end, if it has one. */
static int is_of(const struct mst_row *need, const struct mst_row *row) {
    if (*need->value == 2) return !compare(row->key, row->key_len, need->key, need->key_len);
    return *need->value == 0 || compare(row->key, row->key_len, need->value + 1, need->value_len - 1) < 0;
}

/* For each row whether it is needed. (In SQL, each entry is a condition.) */
static uint8_t *looked_up(const struct store *store, const uint8_t *needs, size_t needs_len) {
    uint8_t *found = room(store->count);
    size_t at = 0, row;
    struct mst_row need;
    memset(found, 0, store->count);
    while (mst_rows_next(needs, needs_len, &at, &need) == MST_DONE)
        for (row = place_of(store, need.key, need.key_len); row < store->count && is_of(&need, &store->rows[row]); row++) found[row] = 1;
    return found;
}

/* Writes a number of a list, and says where what follows begins. */
static uint8_t *put_number(uint8_t *out, uint64_t number) {
    int at;
    for (at = 0; at < 8; at++) *out++ = (uint8_t)(number >> 8 * at);
    return out;
}

/* The same of a string. */
static uint8_t *put_string(uint8_t *out, const uint8_t *bytes, size_t len) {
    out = put_number(out, len);
    memcpy(out, bytes, len);
    return out + len;
}

/* The rows that were found, as a list of rows of mst.h. */
static uint8_t *list_of(const struct store *store, const uint8_t *found, size_t *len) {
    uint8_t *list, *out;
    size_t row, count = 0;
    *len = 12;
    for (row = 0; row < store->count; row++)
        if (found[row]) {
            *len += 16 + store->rows[row].key_len + store->rows[row].value_len;
            count++;
        }
    list = out = room(*len);
    memcpy(out, "MSTr", 4);
    out = put_number(out + 4, count);
    for (row = 0; row < store->count; row++)
        if (found[row]) {
            out = put_string(out, store->rows[row].key, store->rows[row].key_len);
            out = put_string(out, store->rows[row].value, store->rows[row].value_len);
        }
    return list;
}

/* Sends the message that the side keeps, which is copied out for that. */
static void send_kept(struct store *store, size_t len) {
    uint8_t *message = room(len);
    check(mst_sync_message(&store->side, message, len, &len));
    send_bytes(message, len);
    free(message);
}

/* Hands in the rows that a reply needs, and says what the call does. */
static int answer_with(struct store *store, const uint8_t *question, size_t len, size_t list_len, size_t *reply_len) {
    uint8_t *needs = room(list_len), *found, *rows;
    size_t rows_len;
    int status;
    check(mst_sync_list(&store->side, needs, list_len, &list_len));
    found = looked_up(store, needs, list_len);
    rows = list_of(store, found, &rows_len);
    status = mst_sync_answer_with(&store->side, question, len, rows, rows_len, 1, MOST_OF_A_REPLY, reply_len);
    free(needs);
    free(found);
    free(rows);
    return status;
}

/* Answers a peer that catches up, until its message has no bytes. */
static void serve(struct store *store) {
    int questions, status;
    for (questions = 0; questions < MOST_QUESTIONS; questions++) {
        size_t len, reply_len, list_len;
        uint8_t *question = receive(&len);
        if (!len) {
            free(question);
            return;
        }
        status = mst_sync_answer(&store->side, question, len, &reply_len, &list_len);
        if (status == MST_NEEDS_ROWS) status = answer_with(store, question, len, list_len, &reply_len);
        free(question);
        if (status == MST_NO_MEMORY || status == MST_BAD_ARGUMENT || status == MST_NEEDS_ROWS) check(status);
        send_kept(store, reply_len); /* a refusal, too */
        check(status);
    }
    fail("the peer asks on", 0);
}

/* Brings what the peer has, and says how many rows came. The list of these is kept, since rows point into it. */
static size_t catch_up(struct store *store) {
    size_t len, list_len = 0, at = 0, came = 0;
    struct mst_row row;
    uint8_t *list;
    int questions;
    check(mst_sync_ask(&store->side, &len));
    for (questions = 0; len && questions < MOST_QUESTIONS; questions++) {
        size_t reply_len;
        uint8_t *reply;
        send_kept(store, len);
        reply = receive(&reply_len);
        check(mst_sync_take(&store->side, reply, reply_len, &len, &list_len));
        free(reply);
    }
    if (len) fail("the peer isn't done", 0);
    list = room(list_len);
    check(mst_sync_list(&store->side, list, list_len, &list_len));
    for (; mst_rows_next(list, list_len, &at, &row) == MST_DONE; came++) join(store, &row);
    send_bytes(NULL, 0);
    return came;
}

int main(int count, char **words) {
    static struct store store;
    int asks_first = count > 1 && !strcmp(words[1], "asks"), word;
    size_t came = 0, at;
    check(mst_sync_new(&store.side));
    for (word = 2; word < count; word++) {
        size_t key_len = strcspn(words[word], "=");
        const char *value = words[word] + key_len + (words[word][key_len] == '=');
        struct mst_row row = {(const uint8_t *)words[word], key_len, (const uint8_t *)value, strlen(value)};
        join(&store, &row);
    }
    if (asks_first) came = catch_up(&store);
    serve(&store);
    if (!asks_first) came = catch_up(&store);
    for (at = 0; at < store.count; at++) {
        struct mst_row *row = &store.rows[at];
        fprintf(stderr, "%.*s=%.*s\n", (int)row->key_len, (const char *)row->key, (int)row->value_len, (const char *)row->value);
    }
    fprintf(stderr, "%zu rows came\n", came);
    mst_sync_free(&store.side);
    return 0;
}
