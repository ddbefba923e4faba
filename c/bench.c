/* How long an upsert, a load, a root hash, a list of page ranges and a comparison of that list with itself take over the boundary, in
 * nanoseconds a key: the best of several rounds, for 100, 1,000, 10,000 and 100,000 keys or for those of the arguments. Keys and rounds
 * are those of the program mst_bench. */
#define _POSIX_C_SOURCE 199309L
#include "timing.h"

static double now(void) {
    return time_of(CLOCK_MONOTONIC);
}

static void note(double *best, double start) {
    double taken = now() - start;
    if (taken < *best) *best = taken;
}

/* The keys of the first states after the seed. */
static char (*keys_of(size_t count))[KEY_LEN + 1] {
    char(*keys)[KEY_LEN + 1] = malloc(count * sizeof *keys);
    uint64_t state = UINT64_C(88172645463325252);
    size_t at;
    want(keys != NULL, "memory was refused");
    for (at = 0; at < count; at++) next_key(&state, keys[at]);
    return keys;
}

static int by_text(const void *a, const void *b) {
    return memcmp(a, b, KEY_LEN);
}

static uint8_t *add_number(uint8_t *out, uint64_t number) {
    int at;
    for (at = 0; at < 8; at++) *out++ = (uint8_t)(number >> (8 * at));
    return out;
}

static const uint8_t VALUE[VALUE_LEN] = {1};

/* The keys in their order as a list of rows. */
static uint8_t *rows_of(char (*keys)[KEY_LEN + 1], size_t count, size_t *len) {
    uint8_t *rows = malloc(12 + count * ROW_LEN), *out = rows;
    size_t at;
    want(rows != NULL, "memory was refused");
    qsort(keys, count, sizeof *keys, by_text);
    memcpy(out, "MSTr", 4);
    out = add_number(out + 4, count);
    for (at = 0; at < count; at++) {
        out = add_number(out, KEY_LEN);
        memcpy(out, keys[at], KEY_LEN);
        out = add_number(out + KEY_LEN, VALUE_LEN);
        memcpy(out, VALUE, VALUE_LEN);
        out += VALUE_LEN;
    }
    *len = (size_t)(out - rows);
    return rows;
}

struct times { double upsert, load, root, page_ranges, diff; };

/* One round of upserts, and what can then be asked of the tree. */
static void note_upserts(struct times *best, char (*keys)[KEY_LEN + 1], size_t count) {
    struct mst_tree tree = MST_NO_TREE;
    uint8_t root[16], *list, found[16];
    size_t at, len, needed;
    double start;
    int status = MST_DONE;
    want(mst_tree_new(&tree) == MST_DONE, "no tree");
    start = now();
    for (at = 0; at < count; at++) status |= mst_tree_upsert(&tree, (const uint8_t *)keys[at], KEY_LEN, VALUE, VALUE_LEN);
    note(&best->upsert, start);
    want(status == MST_DONE, "an upsert was refused");
    start = now();
    want(mst_tree_root_hash(&tree, root) == MST_DONE, "no root hash");
    note(&best->root, start);
    want(mst_tree_page_ranges(&tree, NULL, 0, &len) == MST_TOO_SHORT, "no page ranges");
    list = malloc(len);
    want(list != NULL, "memory was refused");
    start = now();
    want(mst_tree_page_ranges(&tree, list, len, &len) == MST_DONE, "no page ranges");
    note(&best->page_ranges, start);
    start = now();
    want(mst_diff(list, len, list, len, found, sizeof found, &needed) == MST_DONE, "no comparison");
    note(&best->diff, start);
    free(list);
    mst_tree_free(&tree);
}

static void note_load(struct times *best, const uint8_t *rows, size_t len) {
    struct mst_tree tree = MST_NO_TREE;
    double start;
    want(mst_tree_new(&tree) == MST_DONE, "no tree");
    start = now();
    want(mst_tree_load(&tree, rows, len) == MST_DONE, "a load was refused");
    note(&best->load, start);
    mst_tree_free(&tree);
}

static void write_line(size_t count) {
    size_t rounds = 400000 / count, round, len;
    struct times best = {1e18, 1e18, 1e18, 1e18, 1e18};
    char(*keys)[KEY_LEN + 1] = keys_of(count);
    double each = 1.0 / (double)count;
    uint8_t *rows;
    if (rounds < 3) rounds = 3;
    if (rounds > 200) rounds = 200;
    for (round = 0; round < rounds; round++) note_upserts(&best, keys, count);
    rows = rows_of(keys, count, &len);
    for (round = 0; round < rounds; round++) note_load(&best, rows, len);
    printf("%zu %.2f %.2f %.2f %.2f %.2f\n", count, best.upsert * each, best.load * each, best.root * each, best.page_ranges * each,
           best.diff * each);
    free(rows);
    free(keys);
}

int main(int words, char **word) {
    static const size_t COUNTS[] = {100, 1000, 10000, 100000};
    size_t at;
    int next;
    puts("keys upsert_ns load_ns root_ns page_ranges_ns diff_ns");
    for (next = 1; next < words; next++) {
        long count = strtol(word[next], NULL, 10);
        want(count > 0, "usage: bench [NUMBER OF KEYS]..");
        write_line((size_t)count);
    }
    for (at = 0; words == 1 && at < sizeof COUNTS / sizeof *COUNTS; at++) write_line(COUNTS[at]);
    return 0;
}
