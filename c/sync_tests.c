/* The calls of mst_sync.h: root hashes against replicas, syncs of random rows with replicas and with other sides, whose rows are handed in as a whole or in
 * part, what they cost, each status, messages and lists that are altered or cut, and each request for memory refused in turn. */
#define _DEFAULT_SOURCE
#include "mst_sync.h"
#include "testing.h"
#include "testing_sessions.h"

/* ---- a side, or a replica, and the rows of either: the number at each key, or 0 where there is no row */
enum { KEYS = 20000, FEW = 1 << 12 };
struct peer {
    int is_side;
    struct mst_sync side;
    struct mst_replica replica;
    unsigned keys, *rows;
    size_t asked; /* how many rows were handed in */
};

static int text_of(char *out, char letter, unsigned number) {
    return snprintf(out, 16, letter == 'k' ? "k%05u" : "v%05u", number);
}

/* The number that a text of a letter and five digits tells. */
static unsigned number_of(const uint8_t *text) {
    unsigned number = 0;
    int at;
    for (at = 1; at < 6; at++) number = number * 10 + (text[at] - '0');
    return number;
}

static void start(struct peer *peer, int is_side, unsigned keys, uint8_t base, uint8_t format) {
    memset(peer, 0, sizeof *peer);
    peer->is_side = is_side;
    peer->keys = keys;
    peer->rows = __real_malloc(keys * sizeof *peer->rows);
    WANT(peer->rows);
    memset(peer->rows, 0, keys * sizeof *peer->rows);
    if (is_side) WANT(mst_sync_new_with(&peer->side, KEY, base, format) == MST_DONE);
    else WANT(mst_replica_new_with(&peer->replica, KEY, base, format) == MST_DONE);
}

static void end(struct peer *peer) {
    mst_sync_free(&peer->side);
    mst_replica_free(&peer->replica);
    __real_free(peer->rows);
}

/* Joins a number at a key: the greater stays, of which the side is told. */
static int put(struct peer *peer, unsigned key, unsigned value) {
    char name[16], text[16];
    int name_len = text_of(name, 'k', key), text_len;
    if (peer->rows[key] < value) peer->rows[key] = value;
    text_len = text_of(text, 'v', peer->rows[key]);
    if (peer->is_side) return mst_sync_set(&peer->side, (uint8_t *)name, (size_t)name_len, (uint8_t *)text, (size_t)text_len);
    return mst_replica_put(&peer->replica, (uint8_t *)name, (size_t)name_len, (uint8_t *)text, (size_t)text_len);
}

static void root_of(struct peer *peer, uint8_t out[16]) {
    WANT((peer->is_side ? mst_sync_root_hash(&peer->side, out) : mst_replica_root_hash(&peer->replica, out)) == MST_DONE);
}

static int same_root(struct peer *a, struct peer *b) {
    uint8_t roots[2][16];
    root_of(a, roots[0]);
    root_of(b, roots[1]);
    return !memcmp(roots[0], roots[1], 16);
}

static struct bytes message_of(struct peer *peer, size_t len) {
    struct bytes message = room(len);
    size_t needed = 0;
    if (!peer->is_side) WANT(mst_replica_message(&peer->replica, message.at, len, &needed) == MST_DONE && needed == len);
    else {
        if (len) WANT(mst_sync_message(&peer->side, message.at, len - 1, &needed) == MST_TOO_SHORT && needed == len);
        WANT(mst_sync_message(&peer->side, message.at, len, &needed) == MST_DONE && needed == len);
    }
    return message;
}

static struct bytes list_of(struct mst_sync *side, size_t len) {
    struct bytes list = room(len);
    size_t needed = 0;
    if (len) WANT(mst_sync_list(side, list.at, len - 1, &needed) == MST_TOO_SHORT && needed == len);
    WANT(mst_sync_list(side, list.at, len, &needed) == MST_DONE && needed == len);
    return list;
}

/* ---- rows that are handed in */
static int compare(const uint8_t *a, size_t a_len, const uint8_t *b, size_t b_len) {
    int order = memcmp(a, b, a_len < b_len ? a_len : b_len);
    return order ? order : (a_len > b_len) - (a_len < b_len);
}

/* Whether the row of a key is needed, by the first `most` entries of the list. */
static int is_needed(struct bytes needs, size_t most, const char *name, size_t len) {
    const uint8_t *key = (const uint8_t *)name;
    struct mst_row need;
    size_t at = 0;
    for (; most && mst_rows_next(needs.at, needs.len, &at, &need) == MST_DONE; most--) {
        int order = compare(key, len, need.key, need.key_len);
        WANT(need.value_len && *need.value <= 2 && (*need.value == 1 || need.value_len == 1));
        if (*need.value == 2 ? !order : order >= 0 && (!*need.value || compare(key, len, need.value + 1, need.value_len - 1) < 0)) return 1;
    }
    return 0;
}

static void put_number(uint8_t *out, uint64_t number) {
    int at;
    for (at = 0; at < 8; at++) out[at] = (uint8_t)(number >> 8 * at);
}

static void add_text(struct bytes *list, const char *text, int len) {
    put_number(list->at + list->len, (uint64_t)len);
    memcpy(list->at + list->len + 8, text, (size_t)len);
    list->len += 8 + (size_t)len;
}

static int of_keys(struct bytes needs) {
    struct mst_row need;
    size_t at = 0;
    return mst_rows_next(needs.at, needs.len, &at, &need) == MST_DONE && *need.value == 2;
}

/* The rows that are needed, or so many: of keys those of the first keys, of gaps the first in the order of keys. */
static struct bytes looked_up(struct peer *peer, struct bytes needs, size_t most) {
    struct bytes list = room(12 + (size_t)peer->keys * 64);
    int keys = of_keys(needs);
    uint64_t count = 0;
    unsigned key;
    memcpy(list.at, "MSTr", 4);
    list.len = 12;
    for (key = 0; key < peer->keys; key++) {
        char name[16], text[16];
        int len = text_of(name, 'k', key);
        if (!peer->rows[key] || !is_needed(needs, keys ? most : (size_t)-1, name, (size_t)len) || (!keys && count == most)) continue;
        add_text(&list, name, len);
        add_text(&list, text, text_of(text, 'v', peer->rows[key]));
        count++;
    }
    put_number(list.at + 4, count);
    peer->asked += count;
    return list;
}

/* How a side hands rows in: all, or few and then more and more, and where the reply ends. */
static size_t first_part = (size_t)-1, most_bytes = 1 << 26;

static int answer_with_rows(struct peer *peer, struct bytes question, size_t list_len, size_t *len) {
    struct bytes needs = list_of(&peer->side, list_len);
    size_t part = first_part;
    int status;
    do {
        int is_all = part > peer->keys;
        struct bytes rows = looked_up(peer, needs, part);
        status = mst_sync_answer_with(&peer->side, question.at, question.len, rows.at, rows.len, is_all, most_bytes, len);
        WANT(status != MST_NEEDS_ROWS || !is_all);
        __real_free(rows.at);
        part = part > peer->keys ? part : 2 * part;
    } while (status == MST_NEEDS_ROWS);
    __real_free(needs.at);
    return status;
}

static int answer(struct peer *peer, struct bytes question, size_t *len) {
    size_t list_len = 99;
    int status;
    if (!peer->is_side) return mst_replica_answer(&peer->replica, question.at, question.len, len);
    status = mst_sync_answer(&peer->side, question.at, question.len, len, &list_len);
    WANT(status == MST_NEEDS_ROWS || list_len == 99);
    return status == MST_NEEDS_ROWS ? answer_with_rows(peer, question, list_len, len) : status;
}

/* ---- catch-ups */
static int ask(struct peer *peer, size_t *len) {
    return peer->is_side ? mst_sync_ask(&peer->side, len) : mst_replica_ask(&peer->replica, len);
}

/* Joins the rows that came, and says how many they are. */
static size_t join(struct peer *peer, size_t list_len) {
    struct bytes list = list_of(&peer->side, list_len);
    struct mst_row row;
    size_t at = 0, count = 0;
    for (; mst_rows_next(list.at, list.len, &at, &row) == MST_DONE; count++) {
        WANT(row.key_len == 6 && row.value_len == 6);
        WANT(put(peer, number_of(row.key), number_of(row.value)) == MST_DONE);
    }
    __real_free(list.at);
    return count;
}

static int take(struct peer *peer, struct bytes reply, size_t *len, size_t *joined) {
    return peer->is_side ? mst_sync_take(&peer->side, reply.at, reply.len, len, joined)
        : mst_replica_take(&peer->replica, reply.at, reply.len, len, joined);
}

/* One catch-up of `a` with `b`. */
static struct cost catch_up(struct peer *a, struct peer *b) {
    struct cost cost = {0};
    size_t len, reply_len;
    unsigned key;
    WANT(ask(a, &len) == MST_DONE);
    while (len) {
        struct bytes question = message_of(a, len), reply;
        WANT(answer(b, question, &reply_len) == MST_DONE);
        reply = message_of(b, reply_len);
        WANT(take(a, reply, &len, &cost.joined) == MST_DONE);
        WANT(!len || !cost.joined);
        cost.bytes += question.len + reply.len;
        cost.messages += 2;
        __real_free(question.at);
        __real_free(reply.at);
    }
    if (a->is_side) cost.joined = join(a, cost.joined);
    else
        for (key = 0; key < a->keys; key++)
            if (a->rows[key] < b->rows[key]) a->rows[key] = b->rows[key];
    return cost;
}

/* ---- root hashes, and the digests at keys */
static void roots(void) {
    static const struct { uint8_t base, format; unsigned size; } TREES[] = {{16, 1, 0}, {16, 1, 1}, {16, 1, 300}, {16, 2, 300}, {4, 2, 300}, {255, 1, 20}};
    size_t i;
    for (i = 0; i < sizeof TREES / sizeof *TREES; i++) {
        struct peer side, replica;
        uint8_t digest[16] = {77}, other[16], name[16] = {0};
        size_t count;
        unsigned j;
        start(&side, 1, 400, TREES[i].base, TREES[i].format);
        start(&replica, 0, 400, TREES[i].base, TREES[i].format);
        for (j = 0; j < TREES[i].size; j++) WANT(put(&side, (j * 37) % TREES[i].size, j + 1) == MST_DONE);
        for (j = 0; j < TREES[i].size; j++) WANT(put(&replica, j, side.rows[j]) == MST_DONE);
        WANT(same_root(&side, &replica) && mst_sync_len(&side.side, &count) == MST_DONE && count == TREES[i].size);
        WANT(mst_sync_find(&side.side, name, 0, digest) == MST_ABSENT && *digest == 77 && mst_sync_remove(&side.side, name, 0) == MST_ABSENT);
        WANT(mst_sync_set(&side.side, name, 0, name, 0) == MST_DONE && mst_sync_find(&side.side, NULL, 0, digest) == MST_DONE);
        WANT(mst_sync_set(&side.side, NULL, 0, (const uint8_t *)"a", 1) == MST_DONE && mst_sync_find(&side.side, NULL, 0, other) == MST_DONE);
        WANT(memcmp(digest, other, 16) && !same_root(&side, &replica) && mst_sync_len(&side.side, &count) == MST_DONE && count == TREES[i].size + 1);
        WANT(mst_sync_remove(&side.side, NULL, 0) == MST_DONE && same_root(&side, &replica));
        end(&side);
        end(&replica);
    }
    puts("root hashes are those of replicas");
}

/* ---- random rows, synced both ways: two sides, or a side and a replica */
static void syncs(void) {
    int turn;
    for (turn = 0; turn < 600; turn++) {
        struct peer a, b;
        int few = !draw(5); /* (then all rows are asked for at once) */
        uint8_t base = (uint8_t)(turn % 5 ? 16 : 2), format = (uint8_t)(1 + turn % 2);
        unsigned keys = 1 + (unsigned)draw(turn < 550 ? 40 : 1000), i, lacked = 0, lacked_back = 0;
        start(&a, turn % 3 != 0, keys, base, format);
        start(&b, turn % 3 != 1, keys, base, format);
        first_part = draw(2) ? (size_t)-1 : 1 + draw(9);
        most_bytes = draw(3) ? 1 << 26 : 1 + draw(200);
        for (i = 0; i < keys; i++) {
            unsigned both = 1 + (unsigned)draw(80), of_a = few && i % 9 ? 0 : draw(8) ? both : draw(2) ? 1 + (unsigned)draw(80) : 0;
            unsigned of_b = draw(8) ? both : draw(2) ? 1 + (unsigned)draw(80) : 0;
            if (of_a) WANT(put(&a, i, of_a) == MST_DONE);
            if (of_b) WANT(put(&b, i, of_b) == MST_DONE);
            lacked += of_b && of_a != of_b;
            lacked_back += of_a && (of_a > of_b || !of_b);
        }
        WANT(catch_up(&a, &b).joined == lacked);
        WANT(same_root(&a, &b) == !lacked_back);
        WANT(catch_up(&b, &a).joined == lacked_back);
        WANT(same_root(&a, &b) && !memcmp(a.rows, b.rows, keys * sizeof *a.rows));
        WANT(catch_up(&a, &b).messages == 2 && !catch_up(&b, &a).joined);
        end(&a);
        end(&b);
    }
    first_part = (size_t)-1;
    most_bytes = 1 << 26;
    puts("600 pairs of random rows, equal after a catch-up each way");
}

/* ---- what a sync of 20,000 rows costs of which one differs */
static void costs(void) {
    struct peer a, b;
    struct cost cost;
    unsigned i;
    start(&a, 1, KEYS, 16, 1);
    start(&b, 1, KEYS, 16, 1);
    for (i = 0; i < KEYS; i++) WANT(put(&a, i, i + 1) == MST_DONE && put(&b, i, i + 1) == MST_DONE);
    WANT(put(&b, 12345, 99999) == MST_DONE);
    cost = catch_up(&a, &b);
    printf("one of 20,000 rows differs: %zu bytes in %zu messages, for %zu rows looked up\n", cost.bytes, cost.messages, b.asked);
    WANT(cost.joined == 1 && same_root(&a, &b) && cost.bytes < 3000 && cost.messages <= 12 && b.asked == 1);
    end(&a);
    end(&b);
}

/* The question for all rows. */
static const uint8_t ALL_ROWS[] = {1, 5, 1, 0, 0};

/* ---- a side that is let go within a catch-up, after each of its messages, or while it says which rows it needs: nothing is held then */
static void let_go(void) {
    struct mst_sync side = MST_NO_SYNC;
    struct peer peer;
    unsigned after, i, ended = 0;
    size_t len, list_len;
    start(&peer, 0, 400, 2, 1);
    for (i = 0; i < 400; i++) WANT(put(&peer, i, i + 1) == MST_DONE);
    for (after = 0; !ended; after++) {
        held = 0;
        WANT(mst_sync_new_with(&side, KEY, 2, 1) == MST_DONE);
        for (i = 0; i < 100; i++) WANT(mst_sync_set(&side, (const uint8_t *)&i, sizeof i, NULL, 0) == MST_DONE);
        WANT(mst_sync_ask(&side, &len) == MST_DONE);
        for (i = 0; i < after && len; i++) {
            struct bytes question = room(len), reply;
            long before;
            size_t reply_len;
            WANT(mst_sync_message(&side, question.at, len, &len) == MST_DONE);
            before = held;
            WANT(mst_replica_answer(&peer.replica, question.at, len, &reply_len) == MST_DONE);
            held = before; /* what the peer keeps isn't counted */
            reply = room(reply_len);
            WANT(mst_replica_message(&peer.replica, reply.at, reply_len, &reply_len) == MST_DONE);
            WANT(mst_sync_take(&side, reply.at, reply_len, &len, &list_len) == MST_DONE);
            __real_free(question.at);
            __real_free(reply.at);
        }
        ended = !len;
        if (ended) WANT(mst_sync_answer(&side, ALL_ROWS, sizeof ALL_ROWS, &len, &list_len) == MST_NEEDS_ROWS && list_len);
        WANT(held > 0);
        mst_sync_free(&side);
        WANT(!side.at && !held);
    }
    end(&peer);
    printf("a side let go after each of %u messages holds nothing\n", after);
}

/* ---- statuses */
static void bad_arguments(void) {
    struct mst_sync none = MST_NO_SYNC, side = MST_NO_SYNC;
    uint8_t out[16] = {77};
    size_t len = 99, list_len = 88, huge = (size_t)PTRDIFF_MAX + 1;
    void *at;
    WANT(mst_sync_new(NULL) == MST_BAD_ARGUMENT && mst_sync_new_with(&side, NULL, 16, 1) == MST_BAD_ARGUMENT);
    WANT(mst_sync_new_with(NULL, KEY, 16, 1) == MST_BAD_ARGUMENT && mst_sync_new_with(&side, KEY, 0, 1) == MST_BAD_ARGUMENT);
    WANT(mst_sync_new_with(&side, KEY, 16, 0) == MST_BAD_ARGUMENT && mst_sync_new_with(&side, KEY, 16, 3) == MST_BAD_ARGUMENT);
    made = 0;
    WANT(!side.at && mst_sync_new(&side) == MST_DONE && made == 1);
    WANT(mst_sync_root_hash(&side, out) == MST_DONE && mst_sync_message(&side, NULL, 0, &len) == MST_DONE && !len);
    WANT(mst_sync_list(&side, NULL, 0, &len) == MST_DONE && !len && made == 1);
    *out = 77;
    len = 99;
    at = side.at;
    WANT(mst_sync_new(&side) == MST_BAD_ARGUMENT && side.at == at);
    WANT(mst_sync_set(NULL, out, 1, out, 1) == MST_BAD_ARGUMENT && mst_sync_set(&none, out, 1, out, 1) == MST_BAD_ARGUMENT);
    WANT(mst_sync_set(&side, NULL, 1, out, 1) == MST_BAD_ARGUMENT && mst_sync_set(&side, out, 1, NULL, 1) == MST_BAD_ARGUMENT);
    WANT(mst_sync_set(&side, out, huge, out, 1) == MST_BAD_ARGUMENT && mst_sync_set(&side, out, 1, out, huge) == MST_BAD_ARGUMENT);
    WANT(mst_sync_remove(NULL, out, 1) == MST_BAD_ARGUMENT && mst_sync_remove(&none, out, 1) == MST_BAD_ARGUMENT);
    WANT(mst_sync_remove(&side, NULL, 1) == MST_BAD_ARGUMENT && mst_sync_remove(&side, out, huge) == MST_BAD_ARGUMENT);
    WANT(mst_sync_find(NULL, out, 1, out) == MST_BAD_ARGUMENT && mst_sync_find(&none, out, 1, out) == MST_BAD_ARGUMENT);
    WANT(mst_sync_find(&side, NULL, 1, out) == MST_BAD_ARGUMENT && mst_sync_find(&side, out, huge, out) == MST_BAD_ARGUMENT);
    WANT(mst_sync_find(&side, out, 1, NULL) == MST_BAD_ARGUMENT);
    WANT(mst_sync_len(NULL, &len) == MST_BAD_ARGUMENT && mst_sync_len(&none, &len) == MST_BAD_ARGUMENT && mst_sync_len(&side, NULL) == MST_BAD_ARGUMENT);
    WANT(mst_sync_root_hash(NULL, out) == MST_BAD_ARGUMENT && mst_sync_root_hash(&none, out) == MST_BAD_ARGUMENT);
    WANT(mst_sync_root_hash(&side, NULL) == MST_BAD_ARGUMENT);
    WANT(mst_sync_message(NULL, out, 1, &len) == MST_BAD_ARGUMENT && mst_sync_message(&none, out, 1, &len) == MST_BAD_ARGUMENT);
    WANT(mst_sync_message(&side, NULL, 1, &len) == MST_BAD_ARGUMENT && mst_sync_message(&side, out, 1, NULL) == MST_BAD_ARGUMENT);
    WANT(mst_sync_message(&side, out, huge, &len) == MST_BAD_ARGUMENT);
    WANT(mst_sync_list(NULL, out, 1, &len) == MST_BAD_ARGUMENT && mst_sync_list(&none, out, 1, &len) == MST_BAD_ARGUMENT);
    WANT(mst_sync_list(&side, NULL, 1, &len) == MST_BAD_ARGUMENT && mst_sync_list(&side, out, 1, NULL) == MST_BAD_ARGUMENT);
    WANT(mst_sync_list(&side, out, huge, &len) == MST_BAD_ARGUMENT);
    WANT(mst_sync_ask(NULL, &len) == MST_BAD_ARGUMENT && mst_sync_ask(&none, &len) == MST_BAD_ARGUMENT && mst_sync_ask(&side, NULL) == MST_BAD_ARGUMENT);
    WANT(mst_sync_take(NULL, out, 1, &len, &list_len) == MST_BAD_ARGUMENT && mst_sync_take(&none, out, 1, &len, &list_len) == MST_BAD_ARGUMENT);
    WANT(mst_sync_take(&side, NULL, 1, &len, &list_len) == MST_BAD_ARGUMENT && mst_sync_take(&side, out, 1, NULL, &list_len) == MST_BAD_ARGUMENT);
    WANT(mst_sync_take(&side, out, 1, &len, NULL) == MST_BAD_ARGUMENT && mst_sync_take(&side, out, huge, &len, &list_len) == MST_BAD_ARGUMENT);
    WANT(mst_sync_take(&side, out, 1, &len, &list_len) == MST_ABSENT);
    WANT(mst_sync_answer(NULL, out, 1, &len, &list_len) == MST_BAD_ARGUMENT && mst_sync_answer(&none, out, 1, &len, &list_len) == MST_BAD_ARGUMENT);
    WANT(mst_sync_answer(&side, NULL, 1, &len, &list_len) == MST_BAD_ARGUMENT && mst_sync_answer(&side, out, 1, NULL, &list_len) == MST_BAD_ARGUMENT);
    WANT(mst_sync_answer(&side, out, 1, &len, NULL) == MST_BAD_ARGUMENT && mst_sync_answer(&side, out, huge, &len, &list_len) == MST_BAD_ARGUMENT);
    WANT(mst_sync_answer_with(NULL, out, 1, out, 1, 1, 9, &len) == MST_BAD_ARGUMENT);
    WANT(mst_sync_answer_with(&none, out, 1, (const uint8_t *)"MSTr\0\0\0\0\0\0\0", 12, 1, 9, &len) == MST_BAD_ARGUMENT);
    WANT(mst_sync_answer_with(&side, NULL, 1, out, 1, 1, 9, &len) == MST_BAD_ARGUMENT);
    WANT(mst_sync_answer_with(&side, out, 1, NULL, 1, 1, 9, &len) == MST_BAD_ARGUMENT);
    WANT(mst_sync_answer_with(&side, out, huge, out, 1, 1, 9, &len) == MST_BAD_ARGUMENT);
    WANT(mst_sync_answer_with(&side, out, 1, out, huge, 1, 9, &len) == MST_BAD_ARGUMENT);
    WANT(mst_sync_answer_with(&side, out, 1, out, 1, 1, 9, NULL) == MST_BAD_ARGUMENT);
    WANT(mst_sync_take(&side, out, 1, &len, &len) == MST_BAD_ARGUMENT && mst_sync_take(&side, out, SIZE_MAX, &len, &list_len) == MST_BAD_ARGUMENT);
    WANT(mst_sync_answer(&side, out, 1, &len, &len) == MST_BAD_ARGUMENT && mst_sync_answer(&side, out, SIZE_MAX, &len, &list_len) == MST_BAD_ARGUMENT);
    WANT(len == 99 && list_len == 88 && *out == 77 && !none.at);
    /* (null pointers to no bytes, which are no question, no reply and no list of rows) */
    WANT(mst_sync_answer(&side, NULL, 0, &len, &list_len) == MST_MALFORMED && len == 2);
    WANT(mst_sync_answer_with(&side, ALL_ROWS, sizeof ALL_ROWS, NULL, 0, 1, 9, &len) == MST_BAD_ARGUMENT);
    WANT(mst_sync_answer_with(&side, NULL, 0, (const uint8_t *)"MSTr\0\0\0\0\0\0\0", 12, 1, 9, &len) == MST_MALFORMED);
    WANT(mst_sync_ask(&side, &len) == MST_DONE && mst_sync_take(&side, NULL, 0, &len, &list_len) == MST_MALFORMED);
    WANT(mst_sync_take(&side, NULL, 0, &len, &list_len) == MST_ABSENT && list_len == 88);
    mst_sync_free(NULL);
    mst_sync_free(&none);
    mst_sync_free(&side);
    WANT(!side.at);
    mst_sync_free(&side);
    puts("each status, with null for each pointer");
}

/* A side with other settings refuses, by two bytes, and the asking side is told. */
static void settings(void) {
    static const struct { uint8_t key, base, format; } OTHERS[] = {{1, 16, 1}, {0, 4, 1}, {0, 16, 2}};
    size_t i;
    for (i = 0; i < sizeof OTHERS / sizeof *OTHERS; i++) {
        struct peer a, b;
        uint8_t other[16], root[2][16];
        struct bytes question, reply;
        size_t len, reply_len = 99, list_len = 88;
        memcpy(other, KEY, 16);
        other[15] ^= OTHERS[i].key;
        start(&a, 1, 9, 16, 1);
        start(&b, 1, 9, 16, 1);
        mst_sync_free(&b.side);
        WANT(mst_sync_new_with(&b.side, other, OTHERS[i].base, OTHERS[i].format) == MST_DONE);
        WANT(put(&a, 1, 1) == MST_DONE && put(&b, 2, 2) == MST_DONE);
        root_of(&a, root[0]);
        WANT(ask(&a, &len) == MST_DONE);
        question = message_of(&a, len);
        WANT(answer(&b, question, &reply_len) == MST_OTHER_SETTINGS && reply_len == 2);
        reply = message_of(&b, reply_len);
        WANT(!memcmp(reply.at, "\x01\xff", 2));
        WANT(take(&a, reply, &len, &list_len) == MST_REFUSED && len == question.len && list_len == 88);
        root_of(&a, root[1]);
        WANT(!memcmp(root[0], root[1], 16) && mst_sync_message(&a.side, NULL, 0, &len) == MST_DONE && !len);
        WANT(take(&a, reply, &len, &list_len) == MST_ABSENT);
        __real_free(question.at);
        __real_free(reply.at);
        end(&a);
        end(&b);
    }
    puts("other settings are refused");
}

/* ---- sessions that are altered or cut, and lists of rows that are */
static void asking(struct peer *a) {
    unsigned i;
    start(a, 1, 60, 2, 2);
    for (i = 0; i < 60; i++)
        if (i % 9 != 4) WANT(put(a, i, i % 7 == 3 ? 1 : i + 1) == MST_DONE);
}

static void answering(struct peer *b) {
    unsigned i;
    start(b, 1, 60, 2, 2);
    for (i = 0; i < 60; i++) WANT(put(b, i, i + 1) == MST_DONE);
}

/* A hostile question: its answer is a message or a list of needs, and with all rows handed in a message. */
static void hostile_question(void *with, size_t round, struct bytes question) {
    struct peer *b = with;
    uint8_t roots[2][16];
    size_t len = 77, list_len = 99;
    const uint8_t *asked = before_a_wall(question.at, question.len);
    struct bytes reply;
    int status;
    (void)round;
    root_of(b, roots[0]);
    status = mst_sync_answer(&b->side, asked, question.len, &len, &list_len);
    WANT(status == MST_DONE || status == MST_MALFORMED || status == MST_OTHER_SETTINGS || status == MST_NEEDS_ROWS);
    WANT((status == MST_NEEDS_ROWS) == (list_len != 99) && (status == MST_NEEDS_ROWS) == (len == 77));
    if (status == MST_NEEDS_ROWS) {
        struct bytes needs = list_of(&b->side, list_len), rows = looked_up(b, needs, (size_t)-1);
        status = mst_sync_answer_with(&b->side, asked, question.len, rows.at, rows.len, 1, 1 << 26, &len);
        WANT(status == MST_DONE);
        __real_free(needs.at);
        __real_free(rows.at);
    }
    reply = message_of(b, len);
    WANT(status == MST_DONE ? reply.len > 2 || reply.at[1] != 255 : reply.len == 2 && reply.at[1] == 255);
    root_of(b, roots[1]);
    WANT(!memcmp(roots[0], roots[1], 16));
    refusals_seen += status != MST_DONE;
    __real_free(reply.at);
}

static void hostile_reply(void *with, size_t round, struct bytes reply) {
    struct peer a;
    uint8_t roots[2][16];
    size_t len, message_len = 99, list_len = 88, i;
    int status;
    (void)with;
    asking(&a);
    root_of(&a, roots[0]);
    WANT(ask(&a, &len) == MST_DONE);
    for (i = 0; i < round; i++) WANT(take(&a, replies[i], &len, &list_len) == MST_DONE && len);
    list_len = 88;
    status = take(&a, (struct bytes){before_a_wall(reply.at, reply.len), reply.len}, &message_len, &list_len);
    WANT(status == MST_DONE || status == MST_MALFORMED || status == MST_REFUSED);
    if (status != MST_DONE) WANT(message_len == 99 && list_len == 88 && take(&a, reply, &message_len, &list_len) == MST_ABSENT);
    if (status == MST_DONE && !message_len) {
        struct bytes list = list_of(&a.side, list_len);
        struct mst_tree tree = MST_NO_TREE;
        WANT(mst_tree_new(&tree) == MST_DONE && mst_tree_load(&tree, list.at, list.len) == MST_DONE);
        mst_tree_free(&tree);
        __real_free(list.at);
    }
    root_of(&a, roots[1]);
    WANT(!memcmp(roots[0], roots[1], 16));
    refusals_seen += status != MST_DONE;
    end(&a);
}

/* A list of rows that is cut or altered is taken as what it says, or refused; whatever it says, the question is answered of it or not at all. */
static void hostile_rows(void *with, size_t round, struct bytes rows) {
    struct peer *b = with;
    struct bytes question = questions[round];
    size_t len = 99;
    int status = mst_sync_answer_with(&b->side, question.at, question.len, before_a_wall(rows.at, rows.len), rows.len, 1, 1 << 26, &len);
    WANT(status == MST_DONE ? len != 99 : status == MST_BAD_ARGUMENT && len == 99);
    refusals_seen += status != MST_DONE;
}

static void hostile_lists(struct peer *b) {
    static const uint8_t masks[] = {85};
    size_t round, lists = 0;
    for (round = 0; round < rounds; round++) {
        struct bytes needs, rows, question = questions[round];
        size_t len, list_len;
        if (mst_sync_answer(&b->side, question.at, question.len, &len, &list_len) != MST_NEEDS_ROWS) {
            uint8_t none[12] = "MSTr";
            WANT(mst_sync_answer_with(&b->side, question.at, question.len, none, 12, 1, 1 << 26, &len) == (round ? MST_DONE : MST_BAD_ARGUMENT));
            continue;
        }
        needs = list_of(&b->side, list_len);
        rows = looked_up(b, needs, (size_t)-1);
        alter(rows, masks, sizeof masks, hostile_rows, b, round);
        lists++;
        __real_free(needs.at);
        __real_free(rows.at);
    }
    WANT(lists);
    printf("the rows that %zu questions need, each byte altered and each cut\n", lists);
}

/* Whether a message has a value in it. */
static int tells_value(struct bytes message) {
    size_t at;
    for (at = 0; at + 4 <= message.len; at++)
        if (!memcmp(message.at + at, "v000", 4)) return 1;
    return 0;
}

static void hostile(void) {
    struct peer a, b;
    size_t len, reply_len, list_len;
    asking(&a);
    answering(&b);
    WANT(ask(&a, &len) == MST_DONE);
    for (rounds = 0; len; rounds++) {
        WANT(rounds < MOST);
        questions[rounds] = message_of(&a, len);
        WANT(answer(&b, questions[rounds], &reply_len) == MST_DONE);
        replies[rounds] = message_of(&b, reply_len);
        WANT(tells_value(replies[rounds]) == (questions[rounds].at[1] > 3)); /* (pages are told by digests) */
        WANT(take(&a, replies[rounds], &len, &list_len) == MST_DONE);
    }
    WANT(join(&a, list_len) && same_root(&a, &b) && rounds > 2);
    hostile_lists(&b);
    alter_session(hostile_question, &b, hostile_reply, NULL);
    end(&a);
    end(&b);
}

/* ---- refusals: each call is made again until it isn't refused, and a catch-up that is over because memory ran out from its start */
/* The reply to a question, in `reply`; its length. */
static size_t answer_again(struct peer *b, const uint8_t *question, size_t len, uint8_t *reply, int *refused) {
    size_t reply_len = 0, list_len = 0;
    int status;
    while ((status = mst_sync_answer(&b->side, question, len, &reply_len, &list_len)) == MST_NO_MEMORY) (*refused)++;
    if (status == MST_NEEDS_ROWS) {
        struct bytes needs = list_of(&b->side, list_len), rows = looked_up(b, needs, (size_t)-1);
        AGAIN(mst_sync_answer_with(&b->side, question, len, rows.at, rows.len, 1, 1 << 26, &reply_len));
        __real_free(needs.at);
        __real_free(rows.at);
    } else
        WANT(status == MST_DONE);
    WANT(mst_sync_message(&b->side, reply, FEW, &reply_len) == MST_DONE);
    return reply_len;
}

static void catch_up_again(struct peer *a, struct peer *b, int *refused) {
    static uint8_t question[FEW], reply[FEW];
    size_t len, list_len = 0, at = 0;
    struct mst_row row;
    struct bytes list;
    AGAIN(mst_sync_ask(&a->side, &len));
    while (len) {
        int status;
        WANT(mst_sync_message(&a->side, question, sizeof question, &len) == MST_DONE);
        status = mst_sync_take(&a->side, reply, answer_again(b, question, len, reply, refused), &len, &list_len);
        if (status == MST_NO_MEMORY) {
            size_t none = 99;
            (*refused)++;
            WANT(mst_sync_message(&a->side, NULL, 0, &none) == MST_DONE && !none);
            AGAIN(mst_sync_ask(&a->side, &len));
        } else
            WANT(status == MST_DONE);
    }
    list = list_of(&a->side, list_len);
    while (mst_rows_next(list.at, list.len, &at, &row) == MST_DONE)
        AGAIN(put(a, number_of(row.key), number_of(row.value)));
    __real_free(list.at);
}

/* A life of two sides; the root hash at its end. */
static struct bytes a_life(int *refused) {
    struct peer a, b;
    struct bytes root = room(16);
    size_t count;
    unsigned i;
    memset(&a, 0, sizeof a);
    memset(&b, 0, sizeof b);
    a.is_side = b.is_side = 1;
    a.keys = b.keys = 30;
    a.rows = (unsigned *)(void *)room(30 * sizeof *a.rows).at;
    b.rows = (unsigned *)(void *)room(30 * sizeof *b.rows).at;
    memset(a.rows, 0, 30 * sizeof *a.rows);
    memset(b.rows, 0, 30 * sizeof *b.rows);
    AGAIN(mst_sync_new_with(&a.side, KEY, 2, 2));
    AGAIN(mst_sync_new_with(&b.side, KEY, 2, 2));
    for (i = 0; i < 30; i++) {
        if (i % 5 != 1) AGAIN(put(&a, i, i % 7 ? i + 1 : 99));
        if (i % 5 != 2) AGAIN(put(&b, i, i + 1));
    }
    AGAIN(mst_sync_set(&a.side, NULL, 0, NULL, 0));
    AGAIN(mst_sync_find(&a.side, NULL, 0, root.at));
    AGAIN(mst_sync_remove(&a.side, NULL, 0));
    catch_up_again(&a, &b, refused);
    catch_up_again(&b, &a, refused);
    WANT(same_root(&a, &b) && !memcmp(a.rows, b.rows, 30 * sizeof *a.rows));
    AGAIN(mst_sync_len(&a.side, &count));
    WANT(count == 30);
    root_of(&a, root.at);
    end(&a);
    end(&b);
    return root;
}

int main(void) {
    roots();
    syncs();
    costs();
    bad_arguments();
    let_go();
    settings();
    hostile();
    refuse_each(a_life);
    return 0;
}
