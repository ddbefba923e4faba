/* How long the calls of the library for C take on one tree of as many keys as the argument says, and how much memory the tree takes: one
 * line for each, a name and a number. bench/scale compiles and runs it. Times are those of the processor, in nanoseconds a key or, where the
 * name says so, a call; memory is in bytes a key, as the allocator counts it. The keys are those of c/bench.c. */
#define _DEFAULT_SOURCE
#include "timing.h"
#include <malloc.h>
#include <sys/resource.h>

enum { DIGEST_LEN = 8 + KEY_LEN + 16, CALLS = 10000 };

static const uint8_t ONE[VALUE_LEN] = {1}, TWO[VALUE_LEN] = {2};

static double now(void) {
    return time_of(CLOCK_PROCESS_CPUTIME_ID);
}

static void show(const char *name, double value) {
    printf("%s %.2f\n", name, value);
    fflush(stdout);
}

/* Bytes that the allocator has handed out. */
static double held(void) {
    struct mallinfo2 info = mallinfo2();
    return (double)info.uordblks + (double)info.hblkhd;
}

static void upsert(struct mst_tree *tree, const char *key, const uint8_t value[VALUE_LEN]) {
    want(mst_tree_upsert(tree, (const uint8_t *)key, KEY_LEN, value, VALUE_LEN) == MST_DONE, "an upsert was refused");
}

static void hash(struct mst_tree *tree) {
    uint8_t root[16];
    want(mst_tree_root_hash(tree, root) == MST_DONE, "no root hash");
}

/* Upserts of the keys of so many states. */
static void fill(struct mst_tree *tree, size_t count, uint64_t state) {
    char key[KEY_LEN + 1];
    size_t at;
    for (at = 0; at < count; at++) {
        next_key(&state, key);
        upsert(tree, key, ONE);
    }
}

static void keys_alone(size_t count, uint64_t state) {
    char key[KEY_LEN + 1];
    size_t at;
    for (at = 0; at < count; at++) next_key(&state, key);
}

static uint8_t *page_ranges(struct mst_tree *tree, size_t *len) {
    uint8_t *list;
    want(mst_tree_page_ranges(tree, NULL, 0, len) == MST_TOO_SHORT, "no page ranges");
    list = malloc(*len);
    want(list != NULL, "memory was refused");
    want(mst_tree_page_ranges(tree, list, *len, len) == MST_DONE, "no page ranges");
    return list;
}

/* Calls on a hashed tree: of new keys that are put and taken out again, each with the root hash behind it. */
static void show_calls(struct mst_tree *tree, uint64_t seed) {
    char key[KEY_LEN + 1];
    uint64_t state = seed;
    double put = 0, hashed = 0, taken = 0, start;
    size_t at;
    for (at = 0; at < CALLS; at++) {
        next_key(&state, key);
        start = now();
        upsert(tree, key, ONE);
        put += now() - start;
        start = now();
        hash(tree);
        hashed += now() - start;
    }
    for (state = seed, at = 0; at < CALLS; at++) {
        next_key(&state, key);
        start = now();
        want(mst_tree_remove(tree, (const uint8_t *)key, KEY_LEN) == MST_DONE, "no such key");
        taken += now() - start;
        hash(tree);
    }
    show("upsert_of_a_call", put / CALLS);
    show("root_after_an_upsert_of_a_call", hashed / CALLS);
    show("remove_of_a_call", taken / CALLS);
}

/* The page ranges of the tree, compared with themselves and with those after one value is another; the keys in the ranges asked for
 * then aren't counted. */
static void show_lists(struct mst_tree *tree, double each, uint64_t state) {
    char key[KEY_LEN + 1];
    uint8_t out[1 << 12];
    size_t len, other_len, needed;
    uint8_t *list, *other;
    double start;
    list = page_ranges(tree, &len);
    start = now();
    want(mst_tree_page_ranges(tree, list, len, &len) == MST_DONE, "no page ranges");
    show("page_ranges", (now() - start) * each);
    show("page_ranges_bytes", (double)len * each);
    next_key(&state, key);
    upsert(tree, key, TWO);
    hash(tree);
    other = page_ranges(tree, &other_len);
    start = now();
    want(mst_diff(list, len, list, len, out, sizeof out, &needed) == MST_DONE, "no difference");
    show("diff_of_equal_lists", (now() - start) * each);
    start = now();
    want(mst_diff(list, len, other, other_len, out, sizeof out, &needed) == MST_DONE, "no difference");
    show("diff_of_one_value", (now() - start) * each);
    free(list);
    free(other);
}

/* The rows of a tree's keys as a list, by the list of its digests. */
static uint8_t *rows_of(struct mst_tree *tree, size_t count, size_t *len) {
    uint8_t *digests, *rows;
    size_t digests_len, at;
    want(mst_tree_digests(tree, NULL, 0, &digests_len) == MST_TOO_SHORT && digests_len == 12 + count * DIGEST_LEN, "no digests");
    digests = malloc(digests_len);
    *len = 12 + count * ROW_LEN;
    rows = calloc(*len, 1);
    want(digests && rows && mst_tree_digests(tree, digests, digests_len, &digests_len) == MST_DONE, "no digests");
    memcpy(rows, digests, 12);
    memcpy(rows, "MSTr", 4);
    for (at = 0; at < count; at++) {
        uint8_t *row = rows + 12 + at * ROW_LEN;
        memcpy(row, digests + 12 + at * DIGEST_LEN, 8 + KEY_LEN);
        row[8 + KEY_LEN] = VALUE_LEN;
        memcpy(row + 8 + KEY_LEN + 8, ONE, VALUE_LEN);
    }
    free(digests);
    return rows;
}

/* A load of the same rows into a tree of its own. */
static void show_load(struct mst_tree *tree, size_t count, double each) {
    struct mst_tree loaded = MST_NO_TREE;
    size_t len;
    uint8_t *rows = rows_of(tree, count, &len);
    double before = held(), start;
    want(mst_tree_new(&loaded) == MST_DONE, "no tree");
    start = now();
    want(mst_tree_load(&loaded, rows, len) == MST_DONE, "a load was refused");
    show("load", (now() - start) * each);
    show("loaded_tree_bytes", (held() - before) * each);
    mst_tree_free(&loaded);
    free(rows);
}

static void show_copy(struct mst_tree *tree, double each) {
    struct mst_tree copy = MST_NO_TREE;
    double start = now();
    want(mst_tree_clone(tree, &copy) == MST_DONE, "no clone");
    show("clone", (now() - start) * each);
    start = now();
    mst_tree_free(&copy);
    show("free", (now() - start) * each);
}

int main(int words, char **word) {
    static const uint64_t SEED = UINT64_C(88172645463325252), OTHER = UINT64_C(362436069);
    struct mst_tree tree = MST_NO_TREE;
    struct rusage usage;
    long asked = words == 2 ? strtol(word[1], NULL, 10) : 0;
    size_t count = (size_t)asked;
    double each = 1.0 / (double)asked, before, start, keys;
    want(asked > 0, "usage: scale NUMBER_OF_KEYS");
    start = now();
    keys_alone(count, SEED);
    keys = now() - start;
    before = held();
    want(mst_tree_new(&tree) == MST_DONE, "no tree");
    start = now();
    fill(&tree, count, SEED);
    show("upsert", (now() - start - keys) * each);
    show("tree_bytes", (held() - before) * each);
    start = now();
    hash(&tree);
    show("root", (now() - start) * each);
    show_calls(&tree, OTHER);
    show_lists(&tree, each, SEED);
    show_load(&tree, count, each);
    show_copy(&tree, each);
    mst_tree_free(&tree);
    want(!getrusage(RUSAGE_SELF, &usage), "no usage");
    show("most_resident_bytes", (double)usage.ru_maxrss * 1024 * each);
    return 0;
}
