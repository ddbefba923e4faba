/* The calls of mst_replica.h: which value stays, root hashes against mst.h, syncs of random rows and what they cost, each status, sessions
 * of which a byte is altered or that are cut, and each request for memory refused in turn. */
#define _DEFAULT_SOURCE
#include "mst_replica.h"
#include "testing.h"
#include "testing_sessions.h"

/* ---- rows, and bytes of the calls */
static int put(struct mst_replica *replica, unsigned key, unsigned value) {
    char name[16], text[16];
    int name_len = snprintf(name, sizeof name, "k%05u", key), text_len = snprintf(text, sizeof text, "v%u", value);
    return mst_replica_put(replica, (uint8_t *)name, (size_t)name_len, (uint8_t *)text, (size_t)text_len);
}

static struct bytes rows_of(struct mst_replica *replica) {
    struct bytes rows;
    size_t len, again;
    WANT(mst_replica_rows(replica, NULL, 0, &len) == MST_TOO_SHORT);
    rows = room(len);
    memset(rows.at, 77, len);
    WANT(mst_replica_rows(replica, rows.at, len - 1, &again) == MST_TOO_SHORT && again == len && *rows.at == 77);
    WANT(mst_replica_rows(replica, rows.at, len, &again) == MST_DONE && again == len);
    return rows;
}

static struct bytes message_of(struct mst_replica *replica, size_t len) {
    struct bytes message = room(len);
    size_t needed = 0;
    if (len) WANT(mst_replica_message(replica, message.at, len - 1, &needed) == MST_TOO_SHORT && needed == len);
    WANT(mst_replica_message(replica, message.at, len, &needed) == MST_DONE && needed == len);
    return message;
}

static int has_rows(struct mst_replica *replica, struct bytes rows) {
    struct bytes own = rows_of(replica);
    int is = same(own, rows);
    __real_free(own.at);
    return is;
}

static int same_rows(struct mst_replica *a, struct mst_replica *b) {
    struct bytes rows = rows_of(b);
    uint8_t roots[2][16];
    int is = has_rows(a, rows);
    __real_free(rows.at);
    WANT(mst_replica_root_hash(a, roots[0]) == MST_DONE && mst_replica_root_hash(b, roots[1]) == MST_DONE);
    WANT(is == !memcmp(roots[0], roots[1], 16));
    return is;
}

/* One catch-up of `a` with `b`. */
static struct cost catch_up(struct mst_replica *a, struct mst_replica *b) {
    struct cost cost = {0};
    size_t len, reply_len;
    WANT(mst_replica_ask(a, &len) == MST_DONE);
    while (len) {
        struct bytes question = message_of(a, len), reply;
        WANT(mst_replica_answer(b, question.at, question.len, &reply_len) == MST_DONE);
        reply = message_of(b, reply_len);
        WANT(mst_replica_take(a, reply.at, reply.len, &len, &cost.joined) == MST_DONE);
        WANT(!len || !cost.joined);
        cost.bytes += question.len + reply.len;
        cost.messages += 2;
        __real_free(question.at);
        __real_free(reply.at);
    }
    WANT(mst_replica_message(a, NULL, 0, &len) == MST_DONE && !len);
    return cost;
}

/* ---- which value stays */
static const struct { const char *first, *second, *stays; } VALUES[] = {
    {"", "", ""}, {"", "a", "a"}, {"a", "", "a"}, {"a", "b", "b"}, {"b", "a", "b"}, {"ab", "b", "b"}, {"a", "ab", "ab"},
    {"ab", "a", "ab"}, {"abc", "abd", "abd"}, {"\x7f", "\x80", "\x80"}, {"\xff", "\x01", "\xff"}, {"1 later", "2 early", "2 early"},
};

static void values(void) {
    size_t i;
    for (i = 0; i < sizeof VALUES / sizeof *VALUES; i++) {
        struct mst_replica replica = MST_NO_REPLICA;
        uint8_t out[16] = {77}, key[2] = {0, 255};
        const char *stays = VALUES[i].stays;
        size_t needed = 99, count;
        WANT(mst_replica_new(&replica) == MST_DONE);
        WANT(mst_replica_put(&replica, key, 2, (const uint8_t *)VALUES[i].first, strlen(VALUES[i].first)) == MST_DONE);
        WANT(mst_replica_put(&replica, key, 2, (const uint8_t *)VALUES[i].second, strlen(VALUES[i].second)) == MST_DONE);
        WANT(mst_replica_len(&replica, &count) == MST_DONE && count == 1);
        if (*stays) WANT(mst_replica_get(&replica, key, 2, out, strlen(stays) - 1, &needed) == MST_TOO_SHORT && *out == 77);
        if (*stays) WANT(needed == strlen(stays));
        WANT(mst_replica_get(&replica, key, 2, out, sizeof out, &needed) == MST_DONE);
        WANT(needed == strlen(stays) && !memcmp(out, stays, needed));
        needed = 99;
        WANT(mst_replica_get(&replica, key, 1, out, sizeof out, &needed) == MST_ABSENT && needed == 99);
        WANT(mst_replica_put(&replica, NULL, 0, NULL, 0) == MST_DONE && mst_replica_len(&replica, &count) == MST_DONE && count == 2);
        WANT(mst_replica_get(&replica, NULL, 0, NULL, 0, &needed) == MST_DONE && !needed);
        mst_replica_free(&replica);
    }
    puts("the greater of two values stays");
}

/* ---- the root hash is that of the tree of the rows, and the list of rows is one of mst.h */
static void trees(void) {
    static const struct { uint8_t base, format; unsigned size; } TREES[] = {{16, 1, 0}, {16, 1, 1}, {16, 1, 300}, {16, 2, 300}, {4, 2, 300}, {255, 1, 20}};
    size_t i;
    for (i = 0; i < sizeof TREES / sizeof *TREES; i++) {
        struct mst_replica replica = MST_NO_REPLICA;
        struct mst_tree tree = MST_NO_TREE;
        struct bytes rows;
        struct mst_row row, last = {0};
        uint8_t root[16], own[16];
        size_t at = 0, count = 0, number;
        unsigned j;
        int status;
        WANT(mst_replica_new_with(&replica, KEY, TREES[i].base, TREES[i].format) == MST_DONE);
        WANT(mst_tree_new_with(&tree, KEY, TREES[i].base, TREES[i].format) == MST_DONE);
        for (j = 0; j < TREES[i].size; j++) WANT(put(&replica, (j * 37) % TREES[i].size, j) == MST_DONE);
        rows = rows_of(&replica);
        WANT(mst_tree_load(&tree, rows.at, rows.len) == MST_DONE);
        WANT(mst_tree_root_hash(&tree, root) == MST_DONE && mst_replica_root_hash(&replica, own) == MST_DONE && !memcmp(root, own, 16));
        for (; (status = mst_rows_next(rows.at, rows.len, &at, &row)) == MST_DONE; count++, last = row) {
            uint8_t value[16];
            size_t needed;
            if (count) WANT(memcmp(last.key, row.key, 6) < 0);
            WANT(mst_replica_get(&replica, row.key, row.key_len, value, sizeof value, &needed) == MST_DONE);
            WANT(needed == row.value_len && !memcmp(value, row.value, needed));
        }
        WANT(status == MST_ABSENT && count == TREES[i].size && mst_replica_len(&replica, &number) == MST_DONE && number == count);
        __real_free(rows.at);
        mst_tree_free(&tree);
        mst_replica_free(&replica);
    }
    puts("root hashes and rows are those of trees");
}

/* ---- random rows, synced both ways */
static void syncs(void) {
    int turn;
    for (turn = 0; turn < 400; turn++) {
        struct mst_replica a = MST_NO_REPLICA, b = MST_NO_REPLICA;
        uint8_t base = (uint8_t)(turn % 3 ? 16 : 2), format = (uint8_t)(1 + turn % 2);
        unsigned keys = 1 + (unsigned)draw(turn < 350 ? 40 : 1000), i, lacked = 0, lacked_back = 0;
        unsigned *of_a = calloc(keys, sizeof *of_a), *of_b = calloc(keys, sizeof *of_b);
        WANT(of_a && of_b);
        WANT(mst_replica_new_with(&a, KEY, base, format) == MST_DONE && mst_replica_new_with(&b, KEY, base, format) == MST_DONE);
        for (i = 0; i < keys; i++) {
            unsigned both = 10 + (unsigned)draw(80);
            of_a[i] = draw(8) ? both : draw(2) ? 10 + (unsigned)draw(80) : 0;
            of_b[i] = draw(8) ? both : draw(2) ? 10 + (unsigned)draw(80) : 0;
            if (of_a[i]) WANT(put(&a, i, of_a[i]) == MST_DONE);
            if (of_b[i]) WANT(put(&b, i, of_b[i]) == MST_DONE);
            lacked += of_b[i] && of_a[i] != of_b[i];
            lacked_back += of_a[i] && (of_a[i] > of_b[i] || !of_b[i]);
        }
        WANT(catch_up(&a, &b).joined == lacked);
        WANT(same_rows(&a, &b) == !lacked_back);
        WANT(catch_up(&b, &a).joined == lacked_back);
        WANT(same_rows(&a, &b));
        WANT(catch_up(&a, &b).messages == 2 && !catch_up(&b, &a).joined);
        for (i = 0; i < keys; i++) {
            char name[16], text[16];
            uint8_t out[16];
            size_t needed = 0;
            unsigned greater = of_a[i] > of_b[i] ? of_a[i] : of_b[i];
            int len = snprintf(name, sizeof name, "k%05u", i), text_len = snprintf(text, sizeof text, "v%u", greater);
            int status = mst_replica_get(&a, (uint8_t *)name, (size_t)len, out, sizeof out, &needed);
            WANT(greater ? status == MST_DONE && needed == (size_t)text_len && !memcmp(out, text, needed) : status == MST_ABSENT);
        }
        free(of_a);
        free(of_b);
        mst_replica_free(&a);
        mst_replica_free(&b);
    }
    puts("400 pairs of random rows, equal after a catch-up each way");
}

/* ---- what a sync of 20,000 rows costs of which one differs */
static void costs(void) {
    struct mst_replica a = MST_NO_REPLICA, b = MST_NO_REPLICA;
    struct cost cost;
    unsigned i;
    WANT(mst_replica_new(&a) == MST_DONE && mst_replica_new(&b) == MST_DONE);
    for (i = 0; i < 20000; i++) WANT(put(&a, i, i) == MST_DONE && put(&b, i, i) == MST_DONE);
    WANT(put(&b, 12345, 99999) == MST_DONE);
    cost = catch_up(&a, &b);
    WANT(cost.joined == 1 && same_rows(&a, &b) && cost.bytes < 2500 && cost.messages <= 12);
    printf("one of 20,000 rows differs: %zu bytes in %zu messages\n", cost.bytes, cost.messages);
    mst_replica_free(&a);
    mst_replica_free(&b);
}

/* ---- statuses */
static void bad_arguments(void) {
    struct mst_replica none = MST_NO_REPLICA, replica = MST_NO_REPLICA;
    uint8_t out[16] = {77};
    size_t len = 99, joined = 88, huge = (size_t)PTRDIFF_MAX + 1;
    void *at;
    WANT(mst_replica_new(NULL) == MST_BAD_ARGUMENT && mst_replica_new_with(&replica, NULL, 16, 1) == MST_BAD_ARGUMENT);
    WANT(mst_replica_new_with(NULL, KEY, 16, 1) == MST_BAD_ARGUMENT && mst_replica_new_with(&replica, KEY, 0, 1) == MST_BAD_ARGUMENT);
    WANT(mst_replica_new_with(&replica, KEY, 16, 0) == MST_BAD_ARGUMENT && mst_replica_new_with(&replica, KEY, 16, 3) == MST_BAD_ARGUMENT);
    WANT(!replica.at && mst_replica_new(&replica) == MST_DONE);
    at = replica.at;
    WANT(mst_replica_new(&replica) == MST_BAD_ARGUMENT && replica.at == at);
    WANT(mst_replica_put(NULL, out, 1, out, 1) == MST_BAD_ARGUMENT && mst_replica_put(&none, out, 1, out, 1) == MST_BAD_ARGUMENT);
    WANT(mst_replica_put(&replica, NULL, 1, out, 1) == MST_BAD_ARGUMENT && mst_replica_put(&replica, out, 1, NULL, 1) == MST_BAD_ARGUMENT);
    WANT(mst_replica_put(&replica, out, huge, out, 1) == MST_BAD_ARGUMENT && mst_replica_put(&replica, out, 1, out, huge) == MST_BAD_ARGUMENT);
    WANT(mst_replica_get(NULL, out, 1, out, 1, &len) == MST_BAD_ARGUMENT && mst_replica_get(&none, out, 1, out, 1, &len) == MST_BAD_ARGUMENT);
    WANT(mst_replica_get(&replica, NULL, 1, out, 1, &len) == MST_BAD_ARGUMENT && mst_replica_get(&replica, out, 1, NULL, 1, &len) == MST_BAD_ARGUMENT);
    WANT(mst_replica_get(&replica, out, 1, out, 1, NULL) == MST_BAD_ARGUMENT && mst_replica_get(&replica, out, 1, out, huge, &len) == MST_BAD_ARGUMENT);
    WANT(mst_replica_get(&replica, out, huge, out, 1, &len) == MST_BAD_ARGUMENT);
    WANT(mst_replica_len(NULL, &len) == MST_BAD_ARGUMENT && mst_replica_len(&none, &len) == MST_BAD_ARGUMENT && mst_replica_len(&replica, NULL) == MST_BAD_ARGUMENT);
    WANT(mst_replica_root_hash(NULL, out) == MST_BAD_ARGUMENT && mst_replica_root_hash(&none, out) == MST_BAD_ARGUMENT);
    WANT(mst_replica_root_hash(&replica, NULL) == MST_BAD_ARGUMENT);
    WANT(mst_replica_rows(NULL, out, 1, &len) == MST_BAD_ARGUMENT && mst_replica_rows(&none, out, 1, &len) == MST_BAD_ARGUMENT);
    WANT(mst_replica_rows(&replica, NULL, 1, &len) == MST_BAD_ARGUMENT && mst_replica_rows(&replica, out, 1, NULL) == MST_BAD_ARGUMENT);
    WANT(mst_replica_rows(&replica, out, huge, &len) == MST_BAD_ARGUMENT);
    WANT(mst_replica_message(NULL, out, 1, &len) == MST_BAD_ARGUMENT && mst_replica_message(&none, out, 1, &len) == MST_BAD_ARGUMENT);
    WANT(mst_replica_message(&replica, NULL, 1, &len) == MST_BAD_ARGUMENT && mst_replica_message(&replica, out, 1, NULL) == MST_BAD_ARGUMENT);
    WANT(mst_replica_message(&replica, out, huge, &len) == MST_BAD_ARGUMENT);
    WANT(mst_replica_answer(NULL, out, 1, &len) == MST_BAD_ARGUMENT && mst_replica_answer(&none, out, 1, &len) == MST_BAD_ARGUMENT);
    WANT(mst_replica_answer(&replica, NULL, 1, &len) == MST_BAD_ARGUMENT && mst_replica_answer(&replica, out, 1, NULL) == MST_BAD_ARGUMENT);
    WANT(mst_replica_answer(&replica, out, huge, &len) == MST_BAD_ARGUMENT);
    WANT(mst_replica_ask(NULL, &len) == MST_BAD_ARGUMENT && mst_replica_ask(&none, &len) == MST_BAD_ARGUMENT && mst_replica_ask(&replica, NULL) == MST_BAD_ARGUMENT);
    WANT(mst_replica_take(NULL, out, 1, &len, &joined) == MST_BAD_ARGUMENT && mst_replica_take(&none, out, 1, &len, &joined) == MST_BAD_ARGUMENT);
    WANT(mst_replica_take(&replica, NULL, 1, &len, &joined) == MST_BAD_ARGUMENT && mst_replica_take(&replica, out, 1, NULL, &joined) == MST_BAD_ARGUMENT);
    WANT(mst_replica_take(&replica, out, 1, &len, NULL) == MST_BAD_ARGUMENT && mst_replica_take(&replica, out, huge, &len, &joined) == MST_BAD_ARGUMENT);
    WANT(mst_replica_take(&replica, out, 1, &len, &len) == MST_BAD_ARGUMENT && mst_replica_take(&replica, out, SIZE_MAX, &len, &joined) == MST_BAD_ARGUMENT);
    WANT(mst_replica_take(&replica, out, 1, &len, &joined) == MST_ABSENT && len == 99 && joined == 88 && *out == 77 && !none.at);
    /* (null pointers to no bytes, which are no question and no reply) */
    WANT(mst_replica_answer(&replica, NULL, 0, &len) == MST_MALFORMED && len == 2);
    WANT(mst_replica_ask(&replica, &len) == MST_DONE && mst_replica_take(&replica, NULL, 0, &len, &joined) == MST_MALFORMED);
    WANT(mst_replica_take(&replica, NULL, 0, &len, &joined) == MST_ABSENT && joined == 88);
    mst_replica_free(NULL);
    mst_replica_free(&none);
    mst_replica_free(&replica);
    WANT(!replica.at);
    mst_replica_free(&replica);
    puts("each status, with null for each pointer");
}

/* ---- a replica that is let go within a catch-up, after each of its messages: nothing is held then, and the handle takes another one */
static void let_go(void) {
    struct mst_replica a = MST_NO_REPLICA, b = MST_NO_REPLICA;
    unsigned after, i, ended = 0;
    WANT(mst_replica_new_with(&b, KEY, 2, 1) == MST_DONE);
    for (i = 0; i < 400; i++) WANT(put(&b, i, i) == MST_DONE);
    for (after = 0; !ended; after++) {
        size_t len, reply_len, joined;
        held = 0;
        WANT(mst_replica_new_with(&a, KEY, 2, 1) == MST_DONE);
        for (i = 0; i < 400; i += 3) WANT(put(&a, i, i + 1) == MST_DONE);
        WANT(mst_replica_ask(&a, &len) == MST_DONE);
        for (i = 0; i < after && len; i++) {
            struct bytes question = room(len), reply;
            long before;
            WANT(mst_replica_message(&a, question.at, len, &len) == MST_DONE);
            before = held;
            WANT(mst_replica_answer(&b, question.at, len, &reply_len) == MST_DONE);
            held = before; /* what the peer keeps isn't counted */
            reply = room(reply_len);
            WANT(mst_replica_message(&b, reply.at, reply_len, &reply_len) == MST_DONE);
            WANT(mst_replica_take(&a, reply.at, reply_len, &len, &joined) == MST_DONE);
            __real_free(question.at);
            __real_free(reply.at);
        }
        ended = !len;
        WANT(held > 0);
        mst_replica_free(&a);
        WANT(!a.at && !held);
    }
    mst_replica_free(&b);
    printf("a replica let go after each of %u messages holds nothing\n", after);
}

/* A side with other settings refuses, by two bytes, and the asking side is told. */
static void settings(void) {
    static const struct { uint8_t key, base, format; } OTHERS[] = {{1, 16, 1}, {0, 4, 1}, {0, 16, 2}};
    static const uint8_t refusal[2] = {1, 255};
    size_t i;
    for (i = 0; i < sizeof OTHERS / sizeof *OTHERS; i++) {
        struct mst_replica a = MST_NO_REPLICA, b = MST_NO_REPLICA;
        uint8_t other[16] = {0};
        struct bytes question, reply, rows;
        size_t len, reply_len = 99, joined = 88;
        other[15] = OTHERS[i].key;
        WANT(mst_replica_new(&a) == MST_DONE && mst_replica_new_with(&b, other, OTHERS[i].base, OTHERS[i].format) == MST_DONE);
        WANT(put(&a, 1, 1) == MST_DONE && put(&b, 2, 2) == MST_DONE);
        rows = rows_of(&a);
        WANT(mst_replica_ask(&a, &len) == MST_DONE);
        question = message_of(&a, len);
        WANT(mst_replica_answer(&b, question.at, question.len, &reply_len) == MST_OTHER_SETTINGS && reply_len == 2);
        reply = message_of(&b, reply_len);
        WANT(!memcmp(reply.at, refusal, 2));
        WANT(mst_replica_take(&a, reply.at, reply.len, &len, &joined) == MST_REFUSED && len == question.len && joined == 88);
        WANT(has_rows(&a, rows) && mst_replica_message(&a, NULL, 0, &len) == MST_DONE && !len);
        WANT(mst_replica_take(&a, reply.at, reply.len, &len, &joined) == MST_ABSENT);
        __real_free(question.at);
        __real_free(reply.at);
        __real_free(rows.at);
        mst_replica_free(&a);
        mst_replica_free(&b);
    }
    puts("other settings are refused");
}

/* The reply to the first question is taken exactly where docs/WIRE.md lets it be one: the number of rows, and the digest of the root page or
   none. A refusal has a status of its own, and behind each other reply the catch-up is over, with the rows as they were. */
static void first_replies(void) {
#define DIGEST 0, 1, 2, 3, 4, 5, 6, 7, 8, 9, 10, 11, 12, 13, 14, 15
    static const struct { uint8_t bytes[32]; size_t len; int status; int asks; } REPLIES[] = {
        {{1, 129, 5, 1, DIGEST}, 20, MST_DONE, 1},
        {{1, 129, 0, 0}, 4, MST_DONE, 0},
        {{1, 129, 133, 1, 0}, 5, MST_DONE, 0},
        {{1, 255}, 2, MST_REFUSED, 0},
        {{1, 255, 0}, 3, MST_REFUSED, 0},
        {{0}, 0, MST_MALFORMED, 0},
        {{1}, 1, MST_MALFORMED, 0},
        {{1, 129}, 2, MST_MALFORMED, 0},
        {{1, 129, 5}, 3, MST_MALFORMED, 0},
        {{1, 129, 133, 0, 0}, 5, MST_MALFORMED, 0},
        {{1, 129, 5, 2}, 4, MST_MALFORMED, 0},
        {{1, 129, 5, 1, DIGEST}, 19, MST_MALFORMED, 0},
        {{1, 129, 5, 1, DIGEST}, 21, MST_MALFORMED, 0},
        {{1, 129, 0, 0, 0}, 5, MST_MALFORMED, 0},
        {{2, 129, 0, 0}, 4, MST_MALFORMED, 0},
        {{1, 130, 0, 0}, 4, MST_MALFORMED, 0},
        {{1, 1, 0, 0}, 4, MST_MALFORMED, 0},
    };
#undef DIGEST
    size_t i;
    for (i = 0; i < sizeof REPLIES / sizeof *REPLIES; i++) {
        struct mst_replica a = MST_NO_REPLICA;
        struct bytes rows;
        size_t len, joined = 88;
        WANT(mst_replica_new(&a) == MST_DONE && put(&a, 1, 1) == MST_DONE && put(&a, 2, 2) == MST_DONE);
        rows = rows_of(&a);
        WANT(mst_replica_ask(&a, &len) == MST_DONE);
        WANT(mst_replica_take(&a, REPLIES[i].bytes, REPLIES[i].len, &len, &joined) == REPLIES[i].status);
        WANT(has_rows(&a, rows) && joined == (REPLIES[i].status == MST_DONE ? 0 : 88));
        WANT(mst_replica_message(&a, NULL, 0, &len) == (REPLIES[i].asks ? MST_TOO_SHORT : MST_DONE) && !len == !REPLIES[i].asks);
        WANT(REPLIES[i].asks || mst_replica_take(&a, REPLIES[i].bytes, REPLIES[i].len, &len, &joined) == MST_ABSENT);
        __real_free(rows.at);
        mst_replica_free(&a);
    }
    puts("first replies are taken where they can be");
}

/* ---- sessions that are altered or cut */
static void asking(struct mst_replica *a) {
    unsigned i;
    WANT(mst_replica_new_with(a, KEY, 2, 2) == MST_DONE);
    for (i = 0; i < 60; i++)
        if (i % 9 != 4) WANT(put(a, i, i % 7 == 3 ? 1 : i) == MST_DONE);
}

static void answering(struct mst_replica *b) {
    unsigned i;
    WANT(mst_replica_new_with(b, KEY, 2, 2) == MST_DONE);
    for (i = 0; i < 60; i++) WANT(put(b, i, i) == MST_DONE);
}

/* The asking side as it is before it takes the reply of that round. */
static void asking_at(struct mst_replica *a, size_t round) {
    size_t i, len, joined;
    asking(a);
    WANT(mst_replica_ask(a, &len) == MST_DONE);
    for (i = 0; i < round; i++) WANT(mst_replica_take(a, replies[i].at, replies[i].len, &len, &joined) == MST_DONE && len);
}

/* Whether the keys of the rows ascend: a tree takes no others. */
static int ascends(struct mst_replica *replica) {
    struct mst_tree tree = MST_NO_TREE;
    struct bytes rows = rows_of(replica);
    int is;
    WANT(mst_tree_new_with(&tree, KEY, 2, 2) == MST_DONE);
    is = mst_tree_load(&tree, rows.at, rows.len) == MST_DONE;
    mst_tree_free(&tree);
    __real_free(rows.at);
    return is;
}

/* A side, and the rows that it has whatever it is sent. */
struct attacked {
    struct mst_replica *side;
    struct bytes rows;
};

static void hostile_question(void *with, size_t round, struct bytes question) {
    struct attacked *b = with;
    size_t reply_len = 0;
    struct bytes reply;
    int status = mst_replica_answer(b->side, before_a_wall(question.at, question.len), question.len, &reply_len);
    (void)round;
    WANT(status == MST_DONE || status == MST_MALFORMED || status == MST_OTHER_SETTINGS);
    reply = message_of(b->side, reply_len);
    WANT(status == MST_DONE ? reply.len > 2 || reply.at[1] != 255 : reply.len == 2 && reply.at[1] == 255);
    WANT(has_rows(b->side, b->rows));
    refusals_seen += status != MST_DONE;
    __real_free(reply.at);
}

static void hostile_reply(void *with, size_t round, struct bytes reply) {
    struct bytes *rows = with;
    struct mst_replica a = MST_NO_REPLICA;
    size_t message_len = 99, joined = 88, now;
    int status;
    asking_at(&a, round);
    status = mst_replica_take(&a, before_a_wall(reply.at, reply.len), reply.len, &message_len, &joined);
    WANT(status == MST_DONE || status == MST_MALFORMED || status == MST_REFUSED);
    if (status != MST_DONE) WANT(message_len == 99 && joined == 88);
    if (status != MST_DONE) WANT(mst_replica_take(&a, reply.at, reply.len, &message_len, &joined) == MST_ABSENT);
    if (status != MST_DONE || message_len) WANT(has_rows(&a, *rows));
    else WANT(mst_replica_len(&a, &now) == MST_DONE && now >= 53 && ascends(&a));
    refusals_seen += status != MST_DONE;
    mst_replica_free(&a);
}

static void hostile(void) {
    struct mst_replica a = MST_NO_REPLICA, b = MST_NO_REPLICA;
    struct attacked attacked;
    struct bytes own;
    size_t len, reply_len, joined;
    asking(&a);
    answering(&b);
    own = rows_of(&a);
    attacked.side = &b;
    attacked.rows = rows_of(&b);
    WANT(mst_replica_ask(&a, &len) == MST_DONE);
    for (rounds = 0; len; rounds++) {
        WANT(rounds < MOST);
        questions[rounds] = message_of(&a, len);
        WANT(mst_replica_answer(&b, questions[rounds].at, len, &reply_len) == MST_DONE);
        replies[rounds] = message_of(&b, reply_len);
        WANT(mst_replica_take(&a, replies[rounds].at, reply_len, &len, &joined) == MST_DONE);
    }
    WANT(joined && rounds > 2);
    alter_session(hostile_question, &attacked, hostile_reply, &own);
    __real_free(own.at);
    __real_free(attacked.rows.at);
    mst_replica_free(&a);
    mst_replica_free(&b);
}

/* ---- refusals: each call is made again until it isn't refused, and a catch-up that is over because memory ran out from its start */
static size_t catch_up_again(struct mst_replica *a, struct mst_replica *b, int *refused) {
    static uint8_t question[1 << 12], reply[1 << 12];
    size_t len, reply_len, joined = 0, before = 0;
    AGAIN(mst_replica_ask(a, &len));
    while (len) {
        int status;
        WANT(mst_replica_message(a, question, sizeof question, &len) == MST_DONE);
        AGAIN(mst_replica_answer(b, question, len, &reply_len));
        WANT(mst_replica_message(b, reply, sizeof reply, &reply_len) == MST_DONE);
        status = mst_replica_take(a, reply, reply_len, &len, &joined);
        if (status == MST_NO_MEMORY) {
            size_t none = 99;
            (*refused)++;
            before += joined;
            WANT(mst_replica_message(a, NULL, 0, &none) == MST_DONE && !none);
            AGAIN(mst_replica_ask(a, &len));
        } else
            WANT(status == MST_DONE);
    }
    return before + joined;
}

static struct bytes a_life(int *refused) {
    static uint8_t list[1 << 12];
    struct mst_replica a = MST_NO_REPLICA, b = MST_NO_REPLICA;
    struct bytes rows;
    uint8_t value[16];
    size_t needed;
    unsigned i;
    AGAIN(mst_replica_new_with(&a, KEY, 2, 2));
    AGAIN(mst_replica_new_with(&b, KEY, 2, 2));
    for (i = 0; i < 30; i++) {
        if (i % 5 != 1) AGAIN(put(&a, i, i % 7 ? i : 99));
        if (i % 5 != 2) AGAIN(put(&b, i, i));
    }
    AGAIN(mst_replica_get(&a, (const uint8_t *)"k00003", 6, value, sizeof value, &needed));
    WANT(needed == 2 && !memcmp(value, "v3", 2));
    catch_up_again(&a, &b, refused);
    catch_up_again(&b, &a, refused);
    AGAIN(mst_replica_rows(&a, list, sizeof list, &needed));
    rows = room(needed);
    memcpy(rows.at, list, needed);
    AGAIN(mst_replica_rows(&b, list, sizeof list, &needed));
    WANT(needed == rows.len && !memcmp(list, rows.at, needed));
    mst_replica_free(&a);
    mst_replica_free(&b);
    return rows;
}

int main(void) {
    values();
    trees();
    syncs();
    costs();
    bad_arguments();
    let_go();
    settings();
    first_replies();
    hostile();
    refuse_each(a_life);
    return 0;
}
