/* Hostile bytes to the calls of mst.h, for clang's libFuzzer: tests/fuzz compiles and runs it.
 *
 * The first byte of an input says what the rest is: two lists to compare, a list to go over, rows to load, calls on a tree, or what two
 * lists to compare are made of. Lists are read here once more, by the last comment of mst.h, and a status and an answer have to be as this
 * reader and the header say. Bytes that are given and that are written end right before memory that can't be touched. */
#define _DEFAULT_SOURCE
#include <stdio.h>
#include <stdlib.h>
#include <string.h>
#include <sys/mman.h>

#include "mst.h"

#define WANT(test) \
    do { if (!(test)) { fprintf(stderr, "library.c:%d: %s\n", __LINE__, #test); abort(); } } while (0)

enum { ROOM = 1 << 20, PAGE = 1 << 12, MOST = 512, KEYS = 64 };

/* What the fuzzer sees beside the places of this code and of mst.c that an input reaches: for each kind of input and status, how many
 * entries came out. */
__attribute__((section("__libfuzzer_extra_counters"))) static uint8_t seen[5 * 8 * 16];

static void see(unsigned kind, int status, size_t entries) {
    seen[(kind * 8 + (unsigned)status) * 16 + (entries < 15 ? entries : 15)] = 1;
}

/* ---- bytes that end before memory that can't be touched: one room for each place where such bytes are wanted */
static uint8_t *ending(unsigned place, size_t len) {
    static uint8_t *rooms[4];
    if (!rooms[place]) {
        uint8_t *room = mmap(NULL, ROOM + PAGE, PROT_READ | PROT_WRITE, MAP_PRIVATE | MAP_ANONYMOUS, -1, 0);
        WANT(room != MAP_FAILED && !mprotect(room + ROOM, PAGE, PROT_NONE));
        rooms[place] = room;
    }
    WANT(len <= ROOM);
    return rooms[place] + ROOM - len;
}

static uint8_t *copied(unsigned place, const uint8_t *bytes, size_t len) {
    uint8_t *copy = ending(place, len);
    if (len) memcpy(copy, bytes, len);
    return copy;
}

/* ---- a reader of lists */
struct text { const uint8_t *bytes; size_t len; };
struct entry { struct text first, last; const uint8_t *digest; };

/* A kind of list: its mark, how many strings an entry has, and how many bytes of digest stand behind them. */
struct kind { const char *mark; int texts; size_t digest_len; };
static const struct kind PAGE_RANGES = {"MSTp", 2, 16}, KEY_RANGES = {"MSTk", 2, 0}, ROWS = {"MSTr", 2, 0}, DIGESTS = {"MSTd", 1, 16};

struct listed { struct entry at[MOST]; size_t count; };

static uint64_t number_at(const uint8_t *bytes) {
    uint64_t number = 0;
    int at;
    for (at = 7; at >= 0; at--) number = number << 8 | bytes[at];
    return number;
}

static int compare(struct text a, struct text b) {
    size_t least = a.len < b.len ? a.len : b.len;
    int order = least ? memcmp(a.bytes, b.bytes, least) : 0;
    return order ? order : (a.len > b.len) - (a.len < b.len);
}

static int text_at(const uint8_t *list, size_t len, size_t *at, struct text *out) {
    uint64_t size;
    if (len - *at < 8) return 0;
    size = number_at(list + *at);
    if (size > len - *at - 8) return 0;
    out->bytes = list + *at + 8;
    out->len = (size_t)size;
    *at += 8 + (size_t)size;
    return 1;
}

/* Whether an entry of this kind begins at *at, which is then behind it. */
static int entry_at(const uint8_t *list, size_t len, const struct kind *kind, size_t *at, struct entry *out) {
    if (!text_at(list, len, at, &out->first)) return 0;
    if (kind->texts == 2 && !text_at(list, len, at, &out->last)) return 0;
    if (len - *at < kind->digest_len) return 0;
    out->digest = kind->digest_len ? list + *at : NULL;
    *at += kind->digest_len;
    return 1;
}

static int has_front(const uint8_t *list, size_t len, const struct kind *kind) {
    return len >= 12 && !memcmp(list, kind->mark, 4);
}

/* Whether the bytes are a list of this kind. */
static int is_list(const uint8_t *list, size_t len, const struct kind *kind, struct listed *out) {
    uint64_t left;
    size_t at = 12;
    out->count = 0;
    if (!has_front(list, len, kind)) return 0;
    for (left = number_at(list + 4); left; left--) {
        if (out->count == MOST || !entry_at(list, len, kind, &at, &out->at[out->count++])) return 0;
    }
    return at == len;
}

static int are_page_ranges(const uint8_t *list, size_t len, struct listed *out) {
    size_t i;
    if (!is_list(list, len, &PAGE_RANGES, out)) return 0;
    for (i = 0; i < out->count; i++) {
        if (compare(out->at[i].first, out->at[i].last) > 0) return 0;
    }
    return 1;
}

static int are_rows(const uint8_t *list, size_t len, const struct kind *kind, struct listed *out) {
    size_t i;
    if (!is_list(list, len, kind, out)) return 0;
    for (i = 1; i < out->count; i++) {
        if (compare(out->at[i - 1].first, out->at[i].first) >= 0) return 0;
    }
    return 1;
}

/* ---- the laws of a comparison, on any two lists */
static int is_in(struct text key, const struct entry *range) {
    return compare(range->first, key) <= 0 && compare(key, range->last) <= 0;
}

static int is_covered(struct text key, const struct listed *ranges) {
    size_t i;
    for (i = 0; i < ranges->count; i++) {
        if (is_in(key, &ranges->at[i])) return 1;
    }
    return 0;
}

static int is_bound(struct text key, const struct listed *entries) {
    size_t i;
    for (i = 0; i < entries->count; i++) {
        if (!compare(key, entries->at[i].first) || !compare(key, entries->at[i].last)) return 1;
    }
    return 0;
}

/* Whether a key is in a peer's entry whose digest one of the local entries has. */
static int is_agreed(struct text key, const struct listed *local, const struct listed *peer) {
    size_t i, j;
    for (i = 0; i < peer->count; i++) {
        for (j = 0; is_in(key, &peer->at[i]) && j < local->count; j++) {
            if (!memcmp(local->at[j].digest, peer->at[i].digest, 16)) return 1;
        }
    }
    return 0;
}

static int is_range(const struct listed *found, struct text first, struct text last) {
    return found->count == 1 && !compare(found->at[0].first, first) && !compare(found->at[0].last, last);
}

/* The bounds of these entries that are in the peer's first one are in the answer, or in an entry that agrees. */
static void is_held(const struct listed *bounds, const struct listed *local, const struct listed *peer, const struct listed *found) {
    size_t i;
    for (i = 0; i < bounds->count; i++) {
        struct text first = bounds->at[i].first, last = bounds->at[i].last;
        WANT(!is_in(first, &peer->at[0]) || is_covered(first, found) || is_agreed(first, local, peer));
        WANT(!is_in(last, &peer->at[0]) || is_covered(last, found) || is_agreed(last, local, peer));
    }
}

/* The cases by the first entries of both lists. */
static void has_case(const struct listed *local, const struct listed *peer, const struct listed *found) {
    const struct entry *a = &local->at[0], *b = &peer->at[0];
    int first, last;
    if (!peer->count) {
        WANT(!found->count);
        return;
    }
    if (!local->count) {
        WANT(is_range(found, b->first, b->last));
        return;
    }
    first = compare(b->first, a->first);
    last = compare(b->last, a->last);
    if (first < 0 && last < 0) {
        WANT(is_range(found, b->first, compare(a->first, b->last) <= 0 ? a->first : b->last));
    } else if ((first > 0 && last > 0) || (first >= 0 && last <= 0 && (first || last))) {
        WANT(!found->count);
    } else {
        is_held(local, local, peer, found);
        is_held(peer, local, peer, found);
    }
}

static void has_laws(const struct listed *local, const struct listed *peer, const struct listed *found) {
    size_t i;
    for (i = 0; i < found->count; i++) {
        const struct entry *range = &found->at[i];
        WANT(compare(range->first, range->last) <= 0);
        WANT(!i || compare(found->at[i - 1].last, range->first) < 0);
        WANT(is_in(range->first, &peer->at[0]) && is_in(range->last, &peer->at[0]));
        WANT(is_bound(range->first, local) || is_bound(range->first, peer));
        WANT(is_bound(range->last, local) || is_bound(range->last, peer));
    }
    has_case(local, peer, found);
}

static void compare_both(unsigned kind, const uint8_t *one, size_t one_len, const uint8_t *other, size_t other_len) {
    static struct listed local, peer, found;
    size_t needed = 77, again;
    int right = are_page_ranges(one, one_len, &local) && are_page_ranges(other, other_len, &peer);
    int status = mst_diff(one, one_len, other, other_len, NULL, 0, &needed);
    uint8_t *out;
    WANT(status == (right ? MST_TOO_SHORT : MST_MALFORMED));
    see(kind, status, local.count + peer.count);
    if (!right) {
        WANT(needed == 77);
        return;
    }
    out = ending(2, needed);
    WANT(mst_diff(one, one_len, other, other_len, out, needed, &again) == MST_DONE && again == needed);
    WANT(is_list(out, needed, &KEY_RANGES, &found));
    see(kind, MST_DONE, found.count);
    has_laws(&local, &peer, &found);
}

/* ---- two lists to compare: two bytes say how long the first is */
static void compare_lists(const uint8_t *data, size_t len) {
    size_t first;
    uint8_t *one, *other;
    if (len < 2) return;
    first = (data[0] | (size_t)data[1] << 8) % (len - 1);
    one = copied(0, data + 2, first);
    other = copied(1, data + 2 + first, len - 2 - first);
    compare_both(0, one, first, other, len - 2 - first);
}

/* ---- what two lists are made of: how many entries the first has, and for each two keys of one byte, the lesser first, and a digest */
static uint8_t *made(unsigned place, const uint8_t *data, size_t count, size_t *len) {
    enum { ENTRY = 9 + 9 + 16 };
    uint8_t *list = ending(place, *len = 12 + count * ENTRY), *entry = list + 12;
    size_t at;
    memset(list, 0, *len);
    memcpy(list, "MSTp", 4);
    list[4] = (uint8_t)count;
    list[5] = (uint8_t)(count >> 8);
    for (at = 0; at < count; at++, entry += ENTRY) {
        uint8_t a = data[3 * at] % 32, b = data[3 * at + 1] % 32;
        entry[0] = entry[9] = 1;
        entry[8] = a < b ? a : b;
        entry[17] = a < b ? b : a;
        entry[18] = data[3 * at + 2] % 4;
    }
    return list;
}

static void compare_made(const uint8_t *data, size_t len) {
    size_t entries, first, one_len, other_len;
    uint8_t *one, *other;
    if (!len) return;
    entries = (len - 1) / 3 < MOST ? (len - 1) / 3 : MOST - 1;
    first = data[0] % (entries + 1);
    one = made(0, data + 1, first, &one_len);
    other = made(1, data + 1 + 3 * first, entries - first, &other_len);
    compare_both(4, one, one_len, other, other_len);
}

/* ---- a list to go over: two bytes say at which place to begin once more */
static int same_text(const uint8_t *bytes, size_t len, struct text text) {
    return bytes == text.bytes && len == text.len;
}

/* What a step at a place over a list of one of two kinds answers, by the reader. */
static int steps_from(const uint8_t *list, size_t len, const struct kind *one, const struct kind *other, size_t *place, struct entry *out) {
    static struct listed whole;
    const struct kind *kind = has_front(list, len, one) ? one : other;
    size_t at = *place ? *place : 12;
    if (!has_front(list, len, kind)) return MST_MALFORMED;
    if (!*place && !is_list(list, len, kind, &whole)) return MST_MALFORMED;
    if (at >= len) return at == len ? MST_ABSENT : MST_BAD_ARGUMENT;
    if (!entry_at(list, len, kind, &at, out)) return MST_MALFORMED;
    *place = at;
    return MST_DONE;
}

static int step_over_rows(const uint8_t *list, size_t len, size_t *place) {
    static const struct mst_row none;
    struct mst_row row = none;
    struct entry entry;
    size_t wanted_place = *place;
    int wanted = steps_from(list, len, &DIGESTS, &ROWS, &wanted_place, &entry);
    WANT(mst_rows_next(list, len, place, &row) == wanted && *place == wanted_place);
    if (wanted == MST_DONE) {
        WANT(same_text(row.key, row.key_len, entry.first));
        WANT(entry.digest ? row.value == entry.digest && row.value_len == 16 : same_text(row.value, row.value_len, entry.last));
    } else {
        WANT(!row.key && !row.value);
    }
    return wanted;
}

static int step(const uint8_t *list, size_t len, size_t *place) {
    static const struct mst_range none;
    struct mst_range range = none;
    struct entry entry;
    size_t wanted_place = *place;
    int wanted = steps_from(list, len, &PAGE_RANGES, &KEY_RANGES, &wanted_place, &entry);
    WANT(mst_ranges_next(list, len, place, &range) == wanted && *place == wanted_place);
    if (wanted == MST_DONE) {
        WANT(same_text(range.first, range.first_len, entry.first) && same_text(range.last, range.last_len, entry.last));
        WANT(range.digest == entry.digest);
    } else {
        WANT(!range.first && !range.last && !range.digest);
    }
    return wanted;
}

static void go_over(const uint8_t *data, size_t len) {
    size_t place = 0, steps = 0;
    uint8_t *list;
    int status;
    if (len < 2) return;
    list = copied(0, data + 2, len - 2);
    while ((status = step(list, len - 2, &place)) == MST_DONE) steps++;
    see(1, status, steps);
    place = data[0] | (size_t)data[1] << 8;
    see(1, step(list, len - 2, &place), 0);
    place = data[0] | (size_t)data[1] << 8;
    see(1, step_over_rows(list, len - 2, &place), 1);
    for (place = steps = 0; (status = step_over_rows(list, len - 2, &place)) == MST_DONE;) steps++;
    see(1, status, 2 + steps);
}

/* ---- trees */
static void of_settings(struct mst_tree *tree, uint8_t choice) {
    static const uint8_t keys[2][16] = {{0}, {1, 2, 3, 4, 5, 6, 7, 8}}, bases[8] = {16, 1, 2, 3, 4, 16, 128, 255};
    uint8_t key_feed = choice >> 5 < 3 ? choice >> 5 : MST_FEED_BYTES;
    WANT(mst_tree_new_as(tree, keys[choice & 1], bases[choice >> 2 & 7], 1 + (choice >> 1 & 1), key_feed) == MST_DONE);
}

/* The list that a call writes, in the room of a place. */
static uint8_t *list_of(int (*call)(struct mst_tree *, uint8_t *, size_t, size_t *), struct mst_tree *tree, unsigned place, size_t *len) {
    size_t again;
    uint8_t *out;
    WANT(call(tree, NULL, 0, len) == MST_TOO_SHORT);
    out = ending(place, *len);
    WANT(call(tree, out, *len, &again) == MST_DONE && again == *len);
    return out;
}

/* Both trees have one root hash and the same page ranges, which are a list of this many keys' and ask each other for nothing. */
static void are_one(struct mst_tree *tree, struct mst_tree *other, size_t keys) {
    static struct listed ranges;
    uint8_t root[16], other_root[16], *list, *other_list, out[12];
    size_t len, other_len, needed, count;
    WANT(mst_tree_root_hash(tree, root) == MST_DONE && mst_tree_root_hash(other, other_root) == MST_DONE);
    WANT(!memcmp(root, other_root, 16));
    list = list_of(mst_tree_page_ranges, tree, 2, &len);
    other_list = list_of(mst_tree_page_ranges, other, 3, &other_len);
    WANT(len == other_len && !memcmp(list, other_list, len));
    WANT(are_page_ranges(list, len, &ranges) && !ranges.count == !keys);
    WANT(!keys || !memcmp(ranges.at[0].digest, root, 16));
    WANT(mst_diff(list, len, other_list, other_len, out, sizeof out, &needed) == MST_DONE && needed == sizeof out);
    WANT(mst_tree_len(tree, &count) == MST_DONE && count == keys);
    WANT(mst_tree_len(other, &count) == MST_DONE && count == keys);
}

/* ---- rows to load, or digests, behind a byte that says into what tree: upserts of them, the last first, make the same one, and so do rows
 * that are set by one call, whether they ascend or not */
static void set_in_one_call(const uint8_t *list, size_t len, uint8_t settings) {
    static struct listed rows;
    struct mst_tree tree = MST_NO_TREE, other = MST_NO_TREE;
    size_t done = 77, i, count;
    int listed = is_list(list, len, &ROWS, &rows);
    uint8_t root[16], other_root[16];
    of_settings(&tree, settings);
    of_settings(&other, settings);
    WANT(mst_tree_upsert_rows(&tree, list, len, &done) == (listed ? MST_DONE : MST_MALFORMED));
    WANT(done == (listed ? rows.count : 77));
    for (i = 0; listed && i < rows.count; i++) {
        struct entry *row = &rows.at[i];
        WANT(mst_tree_upsert(&other, row->first.bytes, row->first.len, row->last.bytes, row->last.len) == MST_DONE);
    }
    WANT(mst_tree_root_hash(&tree, root) == MST_DONE && mst_tree_root_hash(&other, other_root) == MST_DONE);
    WANT(!memcmp(root, other_root, sizeof root));
    WANT(mst_tree_len(&tree, &count) == MST_DONE && count <= (listed ? rows.count : 0));
    mst_tree_free(&tree);
    mst_tree_free(&other);
}

static void load(const uint8_t *data, size_t len) {
    static struct listed rows;
    struct mst_tree tree = MST_NO_TREE, other = MST_NO_TREE;
    uint8_t *list;
    int status, right, of_digests;
    size_t i;
    if (!len) return;
    list = copied(0, data + 1, len - 1);
    set_in_one_call(list, len - 1, data[0]);
    of_digests = has_front(list, len - 1, &DIGESTS);
    right = are_rows(list, len - 1, of_digests ? &DIGESTS : &ROWS, &rows);
    of_settings(&tree, data[0]);
    of_settings(&other, data[0]);
    WANT(mst_tree_upsert(&tree, data, 1, data, 1) == MST_DONE);
    WANT((of_digests ? mst_tree_load : mst_tree_load_digests)(&tree, list, len - 1) == MST_MALFORMED);
    status = (of_digests ? mst_tree_load_digests : mst_tree_load)(&tree, list, len - 1);
    WANT(status == (right ? MST_DONE : MST_MALFORMED));
    see(2, status, rows.count);
    if (!right) {
        WANT(mst_tree_upsert(&other, data, 1, data, 1) == MST_DONE);
        rows.count = 1;
    }
    for (i = right ? rows.count : 0; i-- > 0;) {
        struct entry *row = &rows.at[i];
        if (of_digests) WANT(mst_tree_upsert_digest(&other, row->first.bytes, row->first.len, row->digest) == MST_DONE);
        else WANT(mst_tree_upsert(&other, row->first.bytes, row->first.len, row->last.bytes, row->last.len) == MST_DONE);
    }
    are_one(&tree, &other, rows.count);
    mst_tree_free(&tree);
    mst_tree_free(&other);
}

/* ---- calls on a tree, behind a byte of settings: each is a byte of what to do, one of a key and one of a value */
static void add_text(uint8_t *list, size_t *at, size_t len, uint8_t byte) {
    memset(list + *at, 0, 8);
    list[*at] = (uint8_t)len;
    memset(list + *at + 8, byte, len);
    *at += 8 + len;
}

/* Loads into a tree the keys that have a value, which is never 0, and tells how many: the key of i is 1 + i % 3 bytes of i. */
static size_t load_model(struct mst_tree *tree, const uint8_t values[KEYS]) {
    static uint8_t list[12 + KEYS * 32];
    size_t at = 12, count = 0, length, i;
    memcpy(list, "MSTr", 4);
    memset(list + 4, 0, 8);
    for (i = 0; i < KEYS; i++) {
        length = 1 + i % 3;
        if (!values[i]) continue;
        add_text(list, &at, length, (uint8_t)i);
        add_text(list, &at, 1, values[i]);
        count++;
    }
    list[4] = (uint8_t)count;
    WANT(mst_tree_load(tree, list, at) == MST_DONE);
    return count;
}

/* Makes one call on a tree, and the same of the model. */
static void call(struct mst_tree *tree, uint8_t values[KEYS], const uint8_t *asked) {
    struct mst_tree copy = MST_NO_TREE;
    uint8_t key[3], value = asked[2] | 1, number = asked[1] % KEYS, root[16];
    size_t key_len = 1 + number % 3;
    memset(key, number, sizeof key);
    switch (asked[0] % 8) {
    case 0: case 1: case 2:
        WANT(mst_tree_upsert(tree, key, key_len, &value, 1) == MST_DONE);
        values[number] = value;
        break;
    case 3: case 4:
        WANT(mst_tree_remove(tree, key, key_len) == (values[number] ? MST_DONE : MST_ABSENT));
        values[number] = 0;
        break;
    case 5:
        WANT(mst_tree_clone(tree, &copy) == MST_DONE);
        mst_tree_free(tree);
        WANT(mst_tree_clone(&copy, tree) == MST_DONE);
        mst_tree_free(&copy);
        break;
    default:
        WANT(mst_tree_root_hash(tree, root) == MST_DONE);
    }
}

static void calls(const uint8_t *data, size_t len) {
    struct mst_tree tree = MST_NO_TREE, other = MST_NO_TREE;
    uint8_t values[KEYS] = {0};
    size_t at, count;
    if (!len) return;
    of_settings(&tree, data[0]);
    of_settings(&other, data[0]);
    for (at = 1; at + 3 <= len; at += 3) call(&tree, values, data + at);
    count = load_model(&other, values);
    see(3, MST_DONE, count);
    are_one(&tree, &other, count);
    mst_tree_free(&tree);
    mst_tree_free(&other);
}

int LLVMFuzzerTestOneInput(const uint8_t *data, size_t len) {
    if (!len) return 0;
    switch (data[0] % 5) {
    case 0: compare_lists(data + 1, len - 1); break;
    case 1: go_over(data + 1, len - 1); break;
    case 2: load(data + 1, len - 1); break;
    case 3: calls(data + 1, len - 1); break;
    default: compare_made(data + 1, len - 1);
    }
    return 0;
}
