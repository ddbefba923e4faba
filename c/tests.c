/* The calls of mst.h: root hashes of the Rust crate and of a second program, each status, each request for memory refused in turn, the
 * room of a tree, and lists that are cut, altered or made at random. */
#define _DEFAULT_SOURCE
#include "mst.h"
#include "testing.h"

/* ---- the trees of the tests: the key of i is its text after a k, its value the eight bytes of its square, the lowest first */
static size_t key_of(uint8_t key[16], unsigned i) {
    return (size_t)snprintf((char *)key, 16, "k%04u", i);
}

static void value_of(uint8_t value[8], uint64_t i) {
    int at;
    for (at = 0; at < 8; at++) value[at] = (uint8_t)(i * i >> (8 * at));
}

static int put(struct mst_tree *tree, unsigned i, uint64_t value) {
    uint8_t key[16], bytes[8];
    size_t len = key_of(key, i);
    value_of(bytes, value);
    return mst_tree_upsert(tree, key, len, bytes, 8);
}

static void put_squares(struct mst_tree *tree, unsigned size) {
    unsigned i;
    for (i = 0; i < size; i++) WANT(put(tree, i, i) == MST_DONE);
}

static void squares_under(struct mst_tree *tree, const uint8_t key[16], uint8_t level_base, uint8_t format, unsigned size) {
    WANT(mst_tree_new_with(tree, key, level_base, format) == MST_DONE);
    put_squares(tree, size);
}

static void squares(struct mst_tree *tree, unsigned size, uint8_t format) {
    static const uint8_t zero_key[16];
    squares_under(tree, zero_key, 16, format, size);
}

static void root_text(struct mst_tree *tree, char text[33]) {
    uint8_t root[16];
    int i;
    WANT(mst_tree_root_hash(tree, root) == MST_DONE);
    for (i = 0; i < 16; i++) snprintf(text + 2 * i, 3, "%02x", root[i]);
}

static int has_root(struct mst_tree *tree, const char *root) {
    char text[33];
    root_text(tree, text);
    return !strcmp(text, root);
}

static uint8_t *page_ranges(struct mst_tree *tree, size_t *len) {
    uint8_t *bytes;
    WANT(mst_tree_page_ranges(tree, NULL, 0, len) == MST_TOO_SHORT);
    bytes = __real_malloc(*len);
    WANT(bytes);
    WANT(mst_tree_page_ranges(tree, bytes, *len - 1, len) == MST_TOO_SHORT);
    WANT(mst_tree_page_ranges(tree, bytes, *len, len) == MST_DONE);
    return bytes;
}

static size_t add_number(uint8_t *out, uint64_t number) {
    int at;
    for (at = 0; at < 8; at++) out[at] = (uint8_t)(number >> (8 * at));
    return 8;
}

static size_t add_row(uint8_t *out, unsigned number, uint64_t value) {
    size_t len = key_of(out + 8, number);
    add_number(out, len);
    add_number(out + 8 + len, 8);
    value_of(out + 8 + len + 8, value);
    return 8 + len + 8 + 8;
}

/* The rows of that many keys as a list; two keys change places where that is asked. */
static size_t row_list(uint8_t *out, unsigned size, int swapped) {
    size_t at = 12;
    unsigned i;
    memcpy(out, "MSTr", 4);
    add_number(out + 4, size);
    for (i = 0; i < size; i++) {
        unsigned number = swapped && i < 2 ? 1 - i : i;
        at += add_row(out + at, number, number);
    }
    return at;
}

/* That many keys as a list of digests, the digest of each 16 times one byte. */
static size_t digest_list(uint8_t *out, unsigned size) {
    size_t at = 12;
    unsigned i;
    memcpy(out, "MSTd", 4);
    add_number(out + 4, size);
    for (i = 0; i < size; i++) {
        uint8_t key[16];
        size_t len = key_of(key, i);
        at += add_number(out + at, len);
        memcpy(out + at, key, len);
        memset(out + at + len, (int)i, 16);
        at += len + 16;
    }
    return at;
}

/* ---- roots, and the number of page ranges: format 1 by the Rust crate merkle-search-tree 0.8.0, format 2 by a second program */
static const struct { unsigned size, ranges; const char *first, *second; } ROOTS[] = {
    {0, 0, "5049d74780a3e07d4202ab47d4cef2f4", "f7f170089f9c5a4339efb2c4ba7b2b1d"},
    {1, 1, "c879f141bd9402f250325abd4d62bf0b", "288142a31240c6e6f4bfde0a55e65b61"},
    {3, 1, "a4b672091ff0355d1004031a26dcb5eb", "2bb2bbafbb46bf97ac21db255f72b352"},
    {100, 5, "f91fa2cf204812b7220a576a96f83d5c", "8acc32e367c23a0e2a4ad2ca20557c29"},
    {500, 31, "e0f755241c7d35c34244df5b508f5a00", "acd4cda82205cb4287806d77c4fd0617"},
    {2000, 124, "7403625a7202b066aed4f896a23b6dbc", "eadb43485db68d74bb5d81756856e954"},
};

/* The same for 500 keys under the key of SipHash 00 01 .. 0f, by level base. */
static const struct { uint8_t level_base; unsigned ranges; const char *first, *second; } BASES[] = {
    {1, 5, "943ebbaf1652f9a0296e5ad760b80238", "b77f759be26ccaaf038bf89d72e0c609"},
    {4, 101, "7e48a06ba06be2b468ea6dd8075afeb5", "d77ecb8cc22a96cadae5719905b82590"},
    {128, 7, "0c9503cdaef72b1981df6df63e48c57c", "578a7dab0c81c92573088eaae4d00249"},
    {255, 9, "86ed190f5351ccc301057fa942b0e922", "cdf41ea7186c4a138feb9f32112c4c81"},
};

/* The root hashes of the Rust crate under its own hasher, for keys of the types `String` and `Vec<u8>` and values of the type `u64`: under
 * the zero key, or 00 01 .. 0f where a byte is the one before it and one more. */
static const struct { uint8_t step, level_base; unsigned size, text_ranges, vector_ranges; const char *text, *vector; } FEEDS[] = {
    {0, 16, 1, 1, 1, "c879f141bd9402f250325abd4d62bf0b", "c879f141bd9402f250325abd4d62bf0b"},
    {0, 16, 100, 11, 6, "2ff6fe415502d740232f55925114d313", "dc86ecde4cff2b22e81b8878f269ed63"},
    {0, 16, 500, 38, 33, "8be1367fcd4d9748f243be463225cce3", "2f05ae8934e6c7379cbe9e17fecd6ca0"},
    {0, 16, 2000, 124, 135, "f17260b4981e0fd8d218e8a5881fa4a6", "aeaff8d434a441bf5a34738186a27aa9"},
    {1, 4, 3, 1, 1, "c70254031c778ad5b17145c13300953c", "c70254031c778ad5b17145c13300953c"},
    {1, 4, 100, 20, 24, "08153b9ff9d76e91ca0a786c26c3d5da", "a0765b42bfd832863271be2cf7d4876c"},
    {1, 4, 500, 93, 98, "538ee05c9cfdd29267cf2213c81ad21c", "68390685900895e2ae63193d8d1e33fb"},
    {1, 4, 2000, 388, 392, "9f42d3adce3a690d472178b759b9ffc4", "6fd76cc7c1630be4ba10aa9a571b0386"},
};

/* The page ranges of a tree: so many, the first of them with the digest of the root page. No step over them takes memory, and their length
 * alone takes one request. */
static void are_ranges(struct mst_tree *tree, unsigned ranges) {
    size_t len, needed, place = 0;
    unsigned found = 0;
    struct mst_range range;
    uint8_t *list = page_ranges(tree, &len), root[16];
    made = 0;
    WANT(mst_tree_page_ranges(tree, NULL, 0, &needed) == MST_TOO_SHORT && needed == len && made == (ranges > 0));
    made = 0;
    WANT(mst_tree_root_hash(tree, root) == MST_DONE);
    while (mst_ranges_next(list, len, &place, &range) == MST_DONE) {
        WANT(range.digest && range.first_len == 5 && range.last_len == 5 && memcmp(range.first, range.last, 5) <= 0);
        WANT(found || !memcmp(range.digest, root, sizeof root));
        found++;
    }
    WANT(!made);
    WANT(found == ranges && place == (found ? len : 0));
    free(list);
}

/* A tree of so many squares, its copy, and the trees that loads of the same rows, and of their digests, make of it once it has another
 * key. */
static void is_tree(struct mst_tree *tree, unsigned size, unsigned ranges, const char *root) {
    static uint8_t rows[1 << 17];
    struct mst_tree copy = MST_NO_TREE;
    size_t count, needed;
    WANT(has_root(tree, root));
    are_ranges(tree, ranges);
    WANT(mst_tree_len(tree, &count) == MST_DONE && count == size);
    WANT(mst_tree_clone(tree, &copy) == MST_DONE);
    WANT(put(tree, 9999, 1) == MST_DONE && !has_root(tree, root));
    WANT(has_root(&copy, root));
    WANT(mst_tree_load(tree, rows, row_list(rows, size, 0)) == MST_DONE);
    WANT(has_root(tree, root));
    WANT(put(tree, 9999, 1) == MST_DONE && !has_root(tree, root));
    WANT(mst_tree_digests(&copy, rows, sizeof rows, &needed) == MST_DONE);
    WANT(mst_tree_load_digests(tree, rows, needed) == MST_DONE);
    WANT(has_root(tree, root));
    mst_tree_free(tree);
    mst_tree_free(&copy);
}

static void roots_and_loads(void) {
    struct mst_tree tree = MST_NO_TREE;
    uint8_t key[16], format;
    size_t at;
    made = 0;
    WANT(mst_tree_new(&tree) == MST_DONE && made == 1);
    mst_tree_free(&tree);
    for (at = 0; at < sizeof key; at++) key[at] = (uint8_t)at;
    for (format = 1; format <= 2; format++) {
        for (at = 0; at < sizeof ROOTS / sizeof *ROOTS; at++) {
            squares(&tree, ROOTS[at].size, format);
            is_tree(&tree, ROOTS[at].size, ROOTS[at].ranges, format == 1 ? ROOTS[at].first : ROOTS[at].second);
        }
        for (at = 0; at < sizeof BASES / sizeof *BASES; at++) {
            squares_under(&tree, key, BASES[at].level_base, format, 500);
            is_tree(&tree, 500, BASES[at].ranges, format == 1 ? BASES[at].first : BASES[at].second);
        }
    }
}

/* ---- rows that are set in some order, each key first with another value: over nothing, over other values, and over themselves */
static size_t rows_by_steps(uint8_t *out, unsigned size, unsigned step) {
    size_t at = 12;
    unsigned i;
    memcpy(out, "MSTr", 4);
    add_number(out + 4, 2 * size);
    for (i = 0; i < size; i++) at += add_row(out + at, i, i + 1);
    for (i = 0; i < size; i++) at += add_row(out + at, i * step % size, i * step % size);
    return at;
}

static void set_rows(void) {
    static const unsigned STEPS[] = {1, 7, 0};
    static uint8_t rows[1 << 17];
    size_t at, turn, done, len;
    for (at = 0; at < sizeof ROOTS / sizeof *ROOTS; at++)
        for (turn = 0; turn < sizeof STEPS / sizeof *STEPS; turn++) {
            struct mst_tree tree = MST_NO_TREE;
            unsigned size = ROOTS[at].size, i;
            len = rows_by_steps(rows, size, STEPS[turn] ? STEPS[turn] : size - 1);
            squares(&tree, 0, 2);
            WANT(mst_tree_upsert_rows(&tree, rows, len, &done) == MST_DONE && done == 2 * size && has_root(&tree, ROOTS[at].second));
            WANT(mst_tree_upsert_rows(&tree, rows, len, &done) == MST_DONE && done == 2 * size && has_root(&tree, ROOTS[at].second));
            mst_tree_free(&tree);
            squares(&tree, 0, 1);
            for (i = 0; i < size; i += 2) WANT(put(&tree, i, i + 3) == MST_DONE);
            WANT(mst_tree_upsert_rows(&tree, rows, len, &done) == MST_DONE && done == 2 * size && has_root(&tree, ROOTS[at].first));
            WANT(put(&tree, 9999, 1) == MST_DONE && mst_tree_upsert_rows(&tree, rows, len, &done) == MST_DONE);
            WANT(mst_tree_len(&tree, &done) == MST_DONE && done == size + 1);
            mst_tree_free(&tree);
        }
}

static void feeds(void) {
    struct mst_tree tree = MST_NO_TREE;
    uint8_t key[16];
    size_t at, i;
    for (at = 0; at < sizeof FEEDS / sizeof *FEEDS; at++) {
        for (i = 0; i < sizeof key; i++) key[i] = (uint8_t)(FEEDS[at].step * i);
        WANT(mst_tree_new_as(&tree, key, FEEDS[at].level_base, 1, MST_FEED_TEXT) == MST_DONE);
        put_squares(&tree, FEEDS[at].size);
        is_tree(&tree, FEEDS[at].size, FEEDS[at].text_ranges, FEEDS[at].text);
        WANT(mst_tree_new_as(&tree, key, FEEDS[at].level_base, 1, MST_FEED_VECTOR) == MST_DONE);
        put_squares(&tree, FEEDS[at].size);
        is_tree(&tree, FEEDS[at].size, FEEDS[at].vector_ranges, FEEDS[at].vector);
    }
}

/* ---- a difference: what to ask a peer for that has another value at one of 1,000 keys, as the Rust crate and a second program say */
static void difference(void) {
    static const char *const ASKED[][2] = {
        {"key00011", "key00096"}, {"key00099", "key00101"}, {"key00124", "key00126"},
        {"key00195", "key00197"}, {"key00205", "key00207"}, {"key00222", "key00224"},
    };
    struct mst_tree trees[2] = {MST_NO_TREE, MST_NO_TREE};
    uint8_t *lists[2], out[1 << 10];
    size_t lens[2], needed, at = 0, i;
    struct mst_range range;
    char text[33];
    for (i = 0; i < 2; i++) {
        unsigned number;
        WANT(mst_tree_new(&trees[i]) == MST_DONE);
        for (number = 0; number < 1000; number++) {
            char key[16];
            snprintf(key, sizeof key, "key%05u", number);
            WANT(mst_tree_upsert(&trees[i], (uint8_t *)key, 8, (const uint8_t *)(i && number == 42 ? "newer" : "known"), 5) == MST_DONE);
        }
        lists[i] = page_ranges(&trees[i], &lens[i]);
    }
    root_text(&trees[0], text);
    WANT(!strcmp(text, "42db87ac9a59fbfd1541927bea98da20"));
    WANT(mst_diff(lists[0], lens[0], lists[1], lens[1], out, sizeof out, &needed) == MST_DONE);
    for (i = 0; i < sizeof ASKED / sizeof *ASKED; i++) {
        WANT(mst_ranges_next(out, needed, &at, &range) == MST_DONE);
        WANT(!range.digest && range.first_len == 8 && range.last_len == 8);
        WANT(!memcmp(range.first, ASKED[i][0], 8) && !memcmp(range.last, ASKED[i][1], 8));
    }
    WANT(mst_ranges_next(out, needed, &at, &range) == MST_ABSENT);
    for (i = 0; i < 2; i++) {
        free(lists[i]);
        mst_tree_free(&trees[i]);
    }
}

/* ---- the rows of a list, which ascend as the keys of the tests do; no step over them takes memory */
static void are_rows(const uint8_t *list, size_t list_len, unsigned size, size_t value_len) {
    size_t at = 0, behind = 12;
    unsigned found = 0;
    struct mst_row row;
    made = 0;
    while (mst_rows_next(list, list_len, &at, &row) == MST_DONE) {
        uint8_t key[16];
        WANT(row.key_len == key_of(key, found) && !memcmp(row.key, key, row.key_len));
        WANT(row.value_len == value_len && row.key == list + behind + 8 && row.value + row.value_len == list + at);
        behind = at;
        found++;
    }
    WANT(!made && found == size && at == list_len);
    WANT(mst_rows_next(list, list_len, &at, &row) == MST_ABSENT && at == list_len);
}

static void rows(void) {
    static uint8_t list[1 << 14];
    size_t len = row_list(list, 300, 0), at = 12 + 8 + 5;
    uint8_t value[8];
    struct mst_row row;
    are_rows(list, len, 300, 8);
    WANT(mst_rows_next(list, 12 + 8 + 5 + 8 + 8, &at, &row) == MST_MALFORMED && at == 12 + 8 + 5);
    at = 12 + 7 * (8 + 5 + 8 + 8);
    WANT(mst_rows_next(list, len, &at, &row) == MST_DONE);
    value_of(value, 7);
    WANT(!memcmp(row.value, value, sizeof value));
    at = len + 1;
    WANT(mst_rows_next(list, len, &at, &row) == MST_BAD_ARGUMENT && at == len + 1);
}

/* ---- pages: those of a tree of squares, read once more */
struct pages { const uint8_t *at; unsigned keys, pages, hashed; };

static uint64_t next_number(struct pages *pages) {
    uint64_t number = 0;
    int at;
    for (at = 7; at >= 0; at--) number = number << 8 | pages->at[at];
    pages->at += 8;
    return number;
}

/* The page that comes next, which is a high page or not, stands under that level, and whose digest is this one where it is known; and all
 * that is below it: the keys come in their order. */
static void is_page(struct pages *pages, int kind, int under, const uint8_t *digest) {
    int level = pages->at[1], has_digest = pages->at[2];
    uint64_t size, i;
    WANT(pages->at[0] == kind && level < under && has_digest <= 1);
    pages->at += 3;
    pages->pages++;
    if (has_digest) {
        WANT(!digest || !memcmp(pages->at, digest, 16));
        pages->at += 16;
        pages->hashed++;
    }
    size = next_number(pages);
    for (i = 0; i < size; i++) {
        uint8_t key[16];
        size_t len;
        if (pages->at[0] == 1) is_page(pages, 1, level, NULL);
        WANT(pages->at[0] == 0);
        pages->at++;
        len = key_of(key, pages->keys++);
        WANT(next_number(pages) == len && !memcmp(pages->at, key, len));
        pages->at += len;
    }
    if (pages->at[0] == 2) is_page(pages, 2, level, NULL);
}

/* The pages of a tree of so many squares, of which so many have a digest, and the number of pages. */
static unsigned are_pages(struct mst_tree *tree, unsigned size, const uint8_t *digest, unsigned unhashed) {
    static uint8_t list[1 << 16];
    struct pages pages = {list + 4, 0, 0, 0};
    size_t needed;
    uint64_t entries;
    memset(list, 0xff, sizeof list);
    WANT(mst_tree_pages(tree, NULL, 0, &needed) == MST_TOO_SHORT && needed < sizeof list);
    WANT(mst_tree_pages(tree, list, needed - 1, &needed) == MST_TOO_SHORT && list[0] == 0xff);
    WANT(mst_tree_pages(tree, list, sizeof list, &needed) == MST_DONE && !memcmp(list, "MSTt", 4) && list[needed] == 0xff);
    entries = next_number(&pages);
    is_page(&pages, 1, 256, digest);
    WANT(pages.at == list + needed && pages.keys == size && entries == pages.keys + pages.pages);
    WANT(pages.hashed + unhashed == pages.pages);
    return pages.pages;
}

/* How many pages have the first key of the tree on them or below them: their page ranges begin with it. */
static unsigned first_pages(struct mst_tree *tree) {
    size_t len, place = 0;
    unsigned found = 0;
    struct mst_range range;
    uint8_t *list = page_ranges(tree, &len);
    while (mst_ranges_next(list, len, &place, &range) == MST_DONE) found += !memcmp(range.first, "k0000", 5);
    free(list);
    return found;
}

static void pages(void) {
    struct mst_tree tree = MST_NO_TREE;
    uint8_t root[16];
    unsigned at, all, first;
    for (at = 0; at < sizeof ROOTS / sizeof *ROOTS; at++) {
        squares(&tree, ROOTS[at].size, 1);
        first = first_pages(&tree);
        WANT(mst_tree_root_hash(&tree, root) == MST_DONE);
        all = are_pages(&tree, ROOTS[at].size, root, 0);
        WANT(all == (ROOTS[at].size ? ROOTS[at].ranges : 1));
        if (ROOTS[at].size) {
            WANT(put(&tree, 0, 0) == MST_DONE);
            WANT(are_pages(&tree, ROOTS[at].size, NULL, first) == all);
        }
        mst_tree_free(&tree);
    }
}

/* ---- digests: the keys in their order, each with the digest of its value, make the same tree once more */
static void digests(void) {
    enum { KEYS = 500, ENTRY = 8 + 5 + 16 };
    static uint8_t list[12 + KEYS * ENTRY];
    struct mst_tree tree = MST_NO_TREE, again = MST_NO_TREE, empty = MST_NO_TREE;
    size_t needed;
    uint8_t front[12] = "MSTd", key[16];
    char root[33];
    unsigned i;
    squares(&tree, KEYS, 1);
    WANT(mst_tree_digests(&tree, NULL, 0, &needed) == MST_TOO_SHORT && needed == sizeof list);
    WANT(mst_tree_digests(&tree, list, sizeof list - 1, &needed) == MST_TOO_SHORT && !list[0]);
    WANT(mst_tree_digests(&tree, list, sizeof list, &needed) == MST_DONE && needed == sizeof list);
    add_number(front + 4, KEYS);
    WANT(!memcmp(list, front, sizeof front));
    WANT(mst_tree_new(&again) == MST_DONE);
    for (i = KEYS; i-- > 0;) {
        const uint8_t *entry = list + 12 + i * ENTRY;
        uint8_t digest[16];
        WANT(entry[0] == key_of(key, i) && !memcmp(entry + 8, key, 5));
        WANT(mst_tree_find(&tree, key, 5, digest) == MST_DONE && !memcmp(digest, entry + 8 + 5, sizeof digest));
        WANT(mst_tree_upsert_digest(&again, key, 5, entry + 8 + 5) == MST_DONE);
    }
    are_rows(list, sizeof list, KEYS, 16);
    root_text(&tree, root);
    WANT(has_root(&again, root));
    WANT(mst_tree_new(&empty) == MST_DONE && mst_tree_digests(&empty, list, sizeof list, &needed) == MST_DONE);
    add_number(front + 4, 0);
    WANT(needed == sizeof front && !memcmp(list, front, sizeof front));
    mst_tree_free(&tree);
    mst_tree_free(&again);
    mst_tree_free(&empty);
}

/* ---- bad arguments: settings that there are not, handles with a tree or without, null pointers, and lengths that no memory has */
#define BAD(call) WANT((call) == MST_BAD_ARGUMENT)

static void bad_arguments(void) {
    static const size_t NO_LENGTHS[] = {SIZE_MAX, (size_t)PTRDIFF_MAX + 1};
    static const uint8_t zero_key[16];
    struct mst_tree tree = MST_NO_TREE, none = MST_NO_TREE, empty = MST_NO_TREE, other = MST_NO_TREE;
    struct mst_range range = {0};
    struct mst_row row = {0};
    uint8_t key[16], out[16] = {0}, *list;
    size_t len = key_of(key, 3), list_len, count = 77, needed = 3, at = 0, i;
    char before[33], others[33];
    squares(&tree, 20, 1);
    squares(&other, 3, 1);
    root_text(&tree, before);
    root_text(&other, others);
    list = page_ranges(&tree, &list_len);

    BAD(mst_tree_new_with(&none, zero_key, 0, 1));
    BAD(mst_tree_new_with(&none, zero_key, 16, 0));
    BAD(mst_tree_new_with(&none, zero_key, 16, 3));
    BAD(mst_tree_new_as(&none, zero_key, 16, 1, 3));
    BAD(mst_tree_new_as(&none, zero_key, 0, 1, MST_FEED_TEXT));
    BAD(mst_tree_new_as(&none, zero_key, 16, 3, MST_FEED_TEXT));

    BAD(mst_tree_new(&tree));
    BAD(mst_tree_new_with(&tree, zero_key, 16, 1));
    BAD(mst_tree_new_as(&tree, zero_key, 16, 1, MST_FEED_TEXT));
    BAD(mst_tree_clone(&tree, &tree));
    BAD(mst_tree_clone(&tree, &other));
    BAD(mst_tree_clone(&none, &tree));
    BAD(mst_tree_clone(&none, &empty));
    BAD(mst_tree_upsert(&none, key, len, key, len));
    BAD(mst_tree_upsert_digest(&none, key, len, zero_key));
    BAD(mst_tree_upsert_rows(&none, list, list_len, &count));
    BAD(mst_tree_remove(&none, key, len));
    BAD(mst_tree_digests(&none, out, sizeof out, &needed));
    BAD(mst_tree_pages(&none, out, sizeof out, &needed));
    BAD(mst_tree_load(&none, key, 0));
    BAD(mst_tree_load_digests(&none, key, 0));
    BAD(mst_tree_find(&none, key, len, out));
    BAD(mst_tree_len(&none, &count));
    BAD(mst_tree_root_hash(&none, out));
    BAD(mst_tree_page_ranges(&none, out, sizeof out, &needed));

    BAD(mst_tree_new(NULL));
    BAD(mst_tree_new_with(NULL, zero_key, 16, 1));
    BAD(mst_tree_new_with(&none, NULL, 16, 1));
    BAD(mst_tree_new_as(NULL, zero_key, 16, 1, MST_FEED_TEXT));
    BAD(mst_tree_new_as(&none, NULL, 16, 1, MST_FEED_TEXT));
    BAD(mst_tree_clone(NULL, &none));
    BAD(mst_tree_clone(&tree, NULL));
    BAD(mst_tree_upsert(NULL, key, len, key, len));
    BAD(mst_tree_upsert(&tree, NULL, 1, key, len));
    BAD(mst_tree_upsert(&tree, key, len, NULL, 1));
    BAD(mst_tree_upsert_digest(NULL, key, len, zero_key));
    BAD(mst_tree_upsert_digest(&tree, NULL, 1, zero_key));
    BAD(mst_tree_upsert_digest(&tree, key, len, NULL));
    BAD(mst_tree_digests(NULL, out, sizeof out, &needed));
    BAD(mst_tree_digests(&tree, NULL, list_len, &needed));
    BAD(mst_tree_digests(&tree, out, sizeof out, NULL));
    BAD(mst_tree_pages(NULL, out, sizeof out, &needed));
    BAD(mst_tree_pages(&tree, NULL, list_len, &needed));
    BAD(mst_tree_pages(&tree, out, sizeof out, NULL));
    BAD(mst_tree_upsert_rows(NULL, list, list_len, &count));
    BAD(mst_tree_upsert_rows(&tree, NULL, 1, &count));
    BAD(mst_tree_upsert_rows(&tree, list, list_len, NULL));
    BAD(mst_tree_remove(NULL, key, len));
    BAD(mst_tree_remove(&tree, NULL, 1));
    BAD(mst_tree_load(NULL, list, list_len));
    BAD(mst_tree_load(&tree, NULL, 1));
    BAD(mst_tree_load_digests(NULL, list, list_len));
    BAD(mst_tree_load_digests(&tree, NULL, 1));
    BAD(mst_tree_find(NULL, key, len, out));
    BAD(mst_tree_find(&tree, NULL, 1, out));
    BAD(mst_tree_find(&tree, key, len, NULL));
    BAD(mst_tree_len(NULL, &count));
    BAD(mst_tree_len(&tree, NULL));
    BAD(mst_tree_root_hash(NULL, out));
    BAD(mst_tree_root_hash(&tree, NULL));
    BAD(mst_tree_page_ranges(NULL, out, sizeof out, &needed));
    BAD(mst_tree_page_ranges(&tree, NULL, list_len, &needed));
    BAD(mst_tree_page_ranges(&tree, out, sizeof out, NULL));
    BAD(mst_diff(NULL, 1, list, list_len, out, sizeof out, &needed));
    BAD(mst_diff(list, list_len, NULL, 1, out, sizeof out, &needed));
    BAD(mst_diff(list, list_len, list, list_len, NULL, sizeof out, &needed));
    BAD(mst_diff(list, list_len, list, list_len, out, sizeof out, NULL));
    BAD(mst_ranges_next(NULL, 1, &at, &range));
    BAD(mst_ranges_next(list, list_len, NULL, &range));
    BAD(mst_ranges_next(list, list_len, &at, NULL));
    BAD(mst_rows_next(NULL, 1, &at, &row));
    BAD(mst_rows_next(list, list_len, NULL, &row));
    BAD(mst_rows_next(list, list_len, &at, NULL));
    mst_tree_free(NULL);

    for (i = 0; i < sizeof NO_LENGTHS / sizeof *NO_LENGTHS; i++) {
        BAD(mst_tree_upsert(&tree, key, NO_LENGTHS[i], key, len));
        BAD(mst_tree_upsert(&tree, key, len, key, NO_LENGTHS[i]));
        BAD(mst_tree_upsert_digest(&tree, key, NO_LENGTHS[i], zero_key));
        BAD(mst_tree_digests(&tree, out, NO_LENGTHS[i], &needed));
        BAD(mst_tree_pages(&tree, out, NO_LENGTHS[i], &needed));
        BAD(mst_tree_upsert_rows(&tree, list, NO_LENGTHS[i], &count));
        BAD(mst_tree_remove(&tree, key, NO_LENGTHS[i]));
        BAD(mst_tree_load(&tree, list, NO_LENGTHS[i]));
        BAD(mst_tree_load_digests(&tree, list, NO_LENGTHS[i]));
        BAD(mst_tree_find(&tree, key, NO_LENGTHS[i], out));
        BAD(mst_tree_page_ranges(&tree, out, NO_LENGTHS[i], &needed));
        BAD(mst_diff(list, NO_LENGTHS[i], list, list_len, out, sizeof out, &needed));
        BAD(mst_diff(list, list_len, list, NO_LENGTHS[i], out, sizeof out, &needed));
        BAD(mst_diff(list, list_len, list, list_len, out, NO_LENGTHS[i], &needed));
        BAD(mst_ranges_next(list, NO_LENGTHS[i], &at, &range));
        BAD(mst_rows_next(list, NO_LENGTHS[i], &at, &row));
    }

    /* none of them has written anything */
    WANT(has_root(&tree, before) && has_root(&other, others));
    WANT(!none.at && !empty.at && count == 77 && needed == 3 && !at && !range.first && !range.last && !range.digest);
    WANT(!row.key && !row.value);
    for (i = 0; i < sizeof out; i++) WANT(!out[i]);

    mst_tree_free(&tree);
    BAD(mst_tree_len(&tree, &count));
    mst_tree_free(&tree);
    mst_tree_free(&other);
    free(list);
}

/* ---- the other statuses, and null pointers to no bytes */
static void statuses(void) {
    static uint8_t rows[1 << 12];
    struct mst_tree tree = MST_NO_TREE;
    uint8_t key[16], out[16] = {0}, *list;
    size_t len = key_of(key, 3), list_len, count, needed, at = 0, i;
    struct mst_range range;
    struct mst_row row;
    char before[33], after[33];
    squares(&tree, 20, 1);
    root_text(&tree, before);
    list = page_ranges(&tree, &list_len);

    WANT(mst_tree_page_ranges(&tree, out, 11, &needed) == MST_TOO_SHORT && needed == list_len);
    WANT(mst_diff(list, list_len, list, list_len, out, 11, &needed) == MST_TOO_SHORT && needed == 12);
    WANT(mst_diff(list, list_len, list, list_len, NULL, 0, &needed) == MST_TOO_SHORT && needed == 12);
    WANT(mst_tree_find(&tree, key, len - 1, out) == MST_ABSENT && mst_tree_find(&tree, NULL, 0, out) == MST_ABSENT);
    for (i = 0; i < sizeof out; i++) WANT(!out[i]);

    WANT(mst_diff(key, len, list, list_len, out, sizeof out, &needed) == MST_MALFORMED);
    WANT(mst_diff(list, list_len, key, len, out, sizeof out, &needed) == MST_MALFORMED);
    WANT(mst_diff(NULL, 0, list, list_len, out, sizeof out, &needed) == MST_MALFORMED);
    WANT(mst_diff(list, list_len, NULL, 0, out, sizeof out, &needed) == MST_MALFORMED);
    WANT(needed == 12);
    WANT(mst_ranges_next(NULL, 0, &at, &range) == MST_MALFORMED);
    WANT(mst_rows_next(NULL, 0, &at, &row) == MST_MALFORMED);
    count = 77;
    WANT(mst_tree_upsert_rows(&tree, NULL, 0, &count) == MST_MALFORMED && count == 77);
    WANT(mst_tree_load(&tree, NULL, 0) == MST_MALFORMED);
    WANT(mst_tree_load_digests(&tree, NULL, 0) == MST_MALFORMED);
    WANT(mst_tree_load(&tree, rows, row_list(rows, 20, 1)) == MST_MALFORMED);
    WANT(mst_tree_load(&tree, rows, row_list(rows, 20, 0) - 1) == MST_MALFORMED);
    WANT(mst_tree_remove(&tree, key, len - 1) == MST_ABSENT);
    WANT(mst_tree_remove(&tree, NULL, 0) == MST_ABSENT);
    root_text(&tree, after);
    WANT(!strcmp(before, after));

    WANT(mst_tree_remove(&tree, key, len) == MST_DONE);
    WANT(mst_tree_remove(&tree, key, len) == MST_ABSENT);
    WANT(mst_tree_len(&tree, &count) == MST_DONE && count == 19);
    WANT(put(&tree, 3, 3) == MST_DONE);
    root_text(&tree, after);
    WANT(!strcmp(before, after));
    WANT(mst_tree_upsert(&tree, NULL, 0, NULL, 0) == MST_DONE);
    WANT(mst_tree_find(&tree, NULL, 0, out) == MST_DONE);
    WANT(mst_tree_upsert_digest(&tree, NULL, 0, out) == MST_DONE);
    WANT(mst_tree_remove(&tree, NULL, 0) == MST_DONE);
    mst_tree_free(&tree);
    free(list);
}

/* ---- refusals: each call is made again until it isn't refused */
/* The requests of the loads: a page that is done gives up the room beyond its nodes where memory is at hand for that, and else keeps it. */
static long load_begins, load_ends;

static void a_life(char text[33], int *refused) {
    static uint8_t rows[1 << 12], asked[1 << 12];
    struct mst_tree tree = MST_NO_TREE, copy = MST_NO_TREE;
    size_t len = row_list(rows, 40, 0), asked_len = digest_list(asked, 30), own_len, other_len, needed, count;
    static uint8_t own[1 << 14], other[1 << 14];
    uint8_t key[16], digest[16];
    unsigned i;
    AGAIN(mst_tree_new(&tree));
    load_begins = made;
    AGAIN(mst_tree_load_digests(&tree, asked, asked_len));
    AGAIN(mst_tree_load(&tree, rows, len));
    load_ends = made;
    for (i = 40; i < 60; i++) AGAIN(put(&tree, i, i));
    AGAIN(mst_tree_upsert_rows(&tree, rows, len, &count));
    WANT(count == 40);
    AGAIN(mst_tree_clone(&tree, &copy));
    for (i = 0; i < 20; i++) {
        size_t key_len = key_of(key, i);
        AGAIN(mst_tree_remove(&copy, key, key_len));
    }
    while (mst_tree_page_ranges(&tree, NULL, 0, &needed) == MST_NO_MEMORY) (*refused)++;
    AGAIN(mst_tree_page_ranges(&tree, own, sizeof own, &own_len));
    WANT(needed == own_len);
    AGAIN(mst_tree_page_ranges(&copy, other, sizeof other, &other_len));
    AGAIN(mst_tree_digests(&copy, asked, sizeof asked, &needed));
    WANT(needed == 12 + 40 * (8 + 5 + 16));
    key_of(key, 20);
    AGAIN(mst_tree_upsert_digest(&copy, key, 5, asked + 12 + 8 + 5));
    AGAIN(mst_tree_find(&copy, key, 5, digest));
    WANT(!memcmp(digest, asked + 12 + 8 + 5, sizeof digest));
    AGAIN(mst_diff(other, other_len, own, own_len, asked, sizeof asked, &needed));
    AGAIN(mst_tree_pages(&copy, other, sizeof other, &needed));
    AGAIN(mst_tree_len(&copy, &count));
    WANT(count == 40);
    root_text(&copy, text);
    mst_tree_free(&tree);
    mst_tree_free(&copy);
}

static void refusals(void) {
    char root[33], again[33];
    int refused = 0;
    long all, at, begins, ends, spared = 0;
    made = held = 0;
    a_life(root, &refused);
    all = made;
    begins = load_begins;
    ends = load_ends;
    WANT(!refused && !held);
    for (at = 1; at <= all; at++) {
        int here = 0;
        made = 0;
        refused_at = at;
        a_life(again, &here);
        WANT(!held);
        WANT(here == 1 || (here == 0 && begins < at && at <= ends));
        WANT(!strcmp(root, again));
        spared += here == 0;
    }
    WANT(spared < ends - begins);
    refused_at = 0;
    printf("%ld requests for memory, each refused in turn; the loads do without %ld of them\n", all, spared);
}

/* Each request of a call that sets rows refused in turn: it tells how many were set, and the tree is the one that these make. */
static void refused_rows(void) {
    enum { SIZE = 40 };
    static uint8_t rows[1 << 12];
    size_t len = row_list(rows, SIZE, 0), before = 0, done, again;
    long at = 0, stops = 0;
    int status;
    do {
        struct mst_tree tree = MST_NO_TREE, front = MST_NO_TREE;
        char root[33];
        WANT(mst_tree_new(&tree) == MST_DONE);
        made = 0;
        refused_at = ++at;
        done = 77;
        status = mst_tree_upsert_rows(&tree, rows, len, &done);
        refused_at = 0;
        WANT(status == MST_NO_MEMORY ? done < SIZE && before <= done : status == MST_DONE && done == SIZE && made < at);
        stops += done != before;
        before = done;
        squares(&front, (unsigned)done, 1);
        root_text(&front, root);
        WANT(has_root(&tree, root));
        WANT(mst_tree_upsert_rows(&tree, rows, len, &again) == MST_DONE && again == SIZE);
        mst_tree_free(&tree);
        mst_tree_free(&front);
    } while (status != MST_DONE);
    WANT(stops == SIZE);
    printf("%ld requests for memory for %d rows, each refused in turn\n", at - 1, SIZE);
}

/* ---- the room of a tree whose keys come level by level: those on level 0, in their order, and then the others in theirs. The keys
 * are those from 10000 on, which are in the order of their numbers. */
#define FIRST 10000
#define KEYS 20000
static uint8_t is_higher[KEYS];

/* Whether a key stands with the first one on one page, so on its level. */
static int stands_with_first(unsigned i) {
    struct mst_tree tree = MST_NO_TREE;
    uint8_t list[256];
    size_t len, place = 0;
    struct mst_range range;
    WANT(mst_tree_new(&tree) == MST_DONE);
    WANT(put(&tree, FIRST, 0) == MST_DONE && put(&tree, FIRST + i, i) == MST_DONE);
    WANT(mst_tree_page_ranges(&tree, list, sizeof list, &len) == MST_DONE);
    WANT(mst_ranges_next(list, len, &place, &range) == MST_DONE);
    mst_tree_free(&tree);
    return place == len;
}

/* The most bytes that the tree of so many keys held while they came. */
static long room_of(unsigned size) {
    struct mst_tree tree = MST_NO_TREE;
    unsigned i, turn;
    held = most = 0;
    WANT(mst_tree_new(&tree) == MST_DONE);
    for (turn = 0; turn < 2; turn++)
        for (i = 0; i < size; i++)
            if (is_higher[i] == turn) WANT(put(&tree, FIRST + i, i) == MST_DONE);
    mst_tree_free(&tree);
    WANT(!held);
    return most;
}

/* Each key above level 0 parts the page of all later keys: no part may keep the room of the whole. */
static void rooms(void) {
    unsigned i, higher = 0;
    long half, whole;
    /* The C library's heap would give a large request whole pages of memory, and keep one of them where most of it is given back; the
     * heap of a sanitizer, which takes no options, doesn't. */
    (void)mallopt(M_MMAP_THRESHOLD, 1 << 24);
    for (i = 0; i < KEYS; i++) higher += is_higher[i] = !stands_with_first(i);
    WANT(higher > KEYS / 20 && higher < KEYS / 13);
    half = room_of(KEYS / 2);
    whole = room_of(KEYS);
    printf("%d keys that come level by level: %ld bytes held at most, and %ld for half of them\n", KEYS, whole, half);
    WANT(10 * whole <= 22 * half);
}

/* ---- lists that are no lists, and what is answered where they are lists */
struct key { const uint8_t *at; size_t len; };
struct list { struct mst_range ranges[64]; size_t count; };

static void read_list(const uint8_t *bytes, size_t len, struct list *out) {
    size_t at = 0;
    struct mst_range range;
    int status;
    out->count = 0;
    while ((status = mst_ranges_next(bytes, len, &at, &range)) == MST_DONE) {
        WANT(out->count < sizeof out->ranges / sizeof *out->ranges);
        out->ranges[out->count++] = range;
    }
    WANT(status == MST_ABSENT);
}

static struct key first_of(const struct mst_range *range) {
    return (struct key){range->first, range->first_len};
}

static struct key last_of(const struct mst_range *range) {
    return (struct key){range->last, range->last_len};
}

static int order(struct key a, struct key b) {
    int by_bytes = memcmp(a.at, b.at, a.len < b.len ? a.len : b.len);
    return by_bytes ? by_bytes : (a.len > b.len) - (a.len < b.len);
}

static int is_in(struct key key, const struct mst_range *range) {
    return order(first_of(range), key) <= 0 && order(key, last_of(range)) <= 0;
}

static int is_in_one(struct key key, const struct list *list) {
    size_t i;
    for (i = 0; i < list->count; i++) if (is_in(key, &list->ranges[i])) return 1;
    return 0;
}

static int is_bound(struct key key, const struct list *list) {
    size_t i;
    for (i = 0; i < list->count; i++)
        if (!order(key, first_of(&list->ranges[i])) || !order(key, last_of(&list->ranges[i]))) return 1;
    return 0;
}

/* The peer's page ranges whose digest is one of one's own. */
static void agreed_ranges(const struct list *own, const struct list *peer, struct list *out) {
    size_t i, j;
    out->count = 0;
    for (i = 0; i < peer->count; i++) {
        for (j = 0; j < own->count && memcmp(own->ranges[j].digest, peer->ranges[i].digest, 16); j++) {}
        if (j < own->count) out->ranges[out->count++] = peer->ranges[i];
    }
}

/* What `diff` says of a key where the peer's first page range holds one's own: it is asked for, or in an agreed page range. */
static void is_told(struct key key, const struct list *peer, const struct list *agreed, const struct list *asked) {
    if (is_in(key, &peer->ranges[0])) WANT(is_in_one(key, asked) || is_in_one(key, agreed));
}

/* What `diff` says of any two lists of which one's own isn't empty. The ranges ascend and no two meet; each is within the peer's first
 * page range, between two bounds of page ranges; and which there are, by where the two first page ranges begin and end. */
static void is_difference(const struct list *own, const struct list *peer, const struct list *asked) {
    const struct mst_range *mine = own->ranges, *first = peer->ranges, *found = asked->ranges;
    size_t i;
    int begins, ends;
    if (!peer->count) {
        WANT(!asked->count);
        return;
    }
    for (i = 0; i < asked->count; i++) {
        struct key from = first_of(&found[i]), to = last_of(&found[i]);
        WANT(!found[i].digest && order(from, to) <= 0);
        WANT(!i || order(last_of(&found[i - 1]), from) < 0);
        WANT(is_in(from, first) && is_in(to, first));
        WANT(is_bound(from, own) || is_bound(from, peer));
        WANT(is_bound(to, own) || is_bound(to, peer));
    }
    begins = order(first_of(first), first_of(mine));
    ends = order(last_of(first), last_of(mine));
    if (begins < 0 && ends < 0) {
        struct key to = order(first_of(mine), last_of(first)) <= 0 ? first_of(mine) : last_of(first);
        WANT(asked->count == 1 && !order(first_of(found), first_of(first)) && !order(last_of(found), to));
    } else if (begins > 0 || ends < 0) {
        WANT(!asked->count);
    } else {
        struct list agreed;
        agreed_ranges(own, peer, &agreed);
        for (i = 0; i < own->count; i++) {
            is_told(first_of(&own->ranges[i]), peer, &agreed, asked);
            is_told(last_of(&own->ranges[i]), peer, &agreed, asked);
        }
        for (i = 0; i < peer->count; i++) {
            is_told(first_of(&peer->ranges[i]), peer, &agreed, asked);
            is_told(last_of(&peer->ranges[i]), peer, &agreed, asked);
        }
        for (i = 0; i < 300; i++) {
            uint8_t key[16];
            size_t len = key_of(key, (unsigned)i);
            is_told((struct key){key, len}, peer, &agreed, asked);
        }
    }
}

/* Whether any bytes of a peer are answered by a difference, which is then a right one, and not by MST_MALFORMED. */
static int differs(const uint8_t *own, size_t own_len, const uint8_t *peer, size_t peer_len) {
    static struct list owns, peers, asked;
    static uint8_t out[1 << 16];
    size_t needed = 0;
    int status = mst_diff(own, own_len, before_a_wall(peer, peer_len), peer_len, out, sizeof out, &needed);
    if (status == MST_MALFORMED) return 0;
    WANT(status == MST_DONE);
    read_list(own, own_len, &owns);
    read_list(peer, peer_len, &peers);
    read_list(out, needed, &asked);
    is_difference(&owns, &peers, &asked);
    return 1;
}

/* What going over a list answers at its end, beyond it, and where no range begins. */
static void ends(const uint8_t *list, size_t len) {
    static const struct { size_t behind; int status; } PLACES[] = {{1, MST_ABSENT}, {2, MST_BAD_ARGUMENT}, {0, MST_MALFORMED}};
    size_t i;
    for (i = 0; i < sizeof PLACES / sizeof *PLACES; i++) {
        size_t from = len - 1 + PLACES[i].behind, at = from;
        struct mst_range range;
        WANT(mst_ranges_next(list, len, &at, &range) == PLACES[i].status);
        WANT(at == from);
    }
}

/* A list that is cut or has a byte too many, or is of another kind, is malformed wherever it is given, and moves and changes nothing. */
static void cut_lists(struct mst_tree *tree, const uint8_t *own, size_t own_len, const uint8_t *peer, size_t peer_len) {
    static uint8_t rows[1 << 12], digests[1 << 12], asked[1 << 12], more[1 << 12];
    size_t rows_len = row_list(rows, 40, 0), digests_len = digest_list(digests, 40), asked_len, len, needed, at = 0, done = 77;
    struct mst_range range;
    struct mst_row row;
    char root[33];
    root_text(tree, root);
    WANT(mst_diff(own, own_len, peer, peer_len, asked, sizeof asked - 1, &asked_len) == MST_DONE && asked_len > 12);
    for (len = 0; len <= asked_len + 1; len++)
        if (len != asked_len) WANT(mst_ranges_next(before_a_wall(asked, len), len, &at, &range) == MST_MALFORMED && !at);
    for (len = 0; len <= rows_len + 1; len++)
        if (len != rows_len) {
            const uint8_t *held = before_a_wall(rows, len);
            WANT(mst_tree_load(tree, held, len) == MST_MALFORMED && mst_rows_next(held, len, &at, &row) == MST_MALFORMED && !at);
            WANT(mst_tree_upsert_rows(tree, held, len, &done) == MST_MALFORMED && done == 77);
        }
    for (len = 0; len <= digests_len + 1; len++)
        if (len != digests_len) {
            const uint8_t *held = before_a_wall(digests, len);
            WANT(mst_tree_load_digests(tree, held, len) == MST_MALFORMED && mst_rows_next(held, len, &at, &row) == MST_MALFORMED && !at);
        }
    WANT(peer_len < sizeof more);
    memcpy(more, peer, peer_len);
    WANT(mst_diff(own, own_len, before_a_wall(more, peer_len + 1), peer_len + 1, NULL, 0, &needed) == MST_MALFORMED);
    WANT(mst_diff(before_a_wall(more, peer_len + 1), peer_len + 1, own, own_len, NULL, 0, &needed) == MST_MALFORMED);
    WANT(mst_tree_load(tree, peer, peer_len) == MST_MALFORMED);
    WANT(mst_tree_load(tree, asked, asked_len) == MST_MALFORMED);
    WANT(mst_tree_load(tree, digests, digests_len) == MST_MALFORMED);
    WANT(mst_tree_upsert_rows(tree, peer, peer_len, &done) == MST_MALFORMED);
    WANT(mst_tree_upsert_rows(tree, asked, asked_len, &done) == MST_MALFORMED);
    WANT(mst_tree_upsert_rows(tree, digests, digests_len, &done) == MST_MALFORMED && done == 77);
    WANT(mst_tree_load_digests(tree, rows, rows_len) == MST_MALFORMED);
    WANT(mst_diff(own, own_len, asked, asked_len, NULL, 0, &needed) == MST_MALFORMED);
    WANT(mst_diff(rows, rows_len, peer, peer_len, NULL, 0, &needed) == MST_MALFORMED);
    WANT(mst_ranges_next(rows, rows_len, &at, &range) == MST_MALFORMED && !at);
    WANT(mst_rows_next(peer, peer_len, &at, &row) == MST_MALFORMED && !at);
    /* the second key is the first once more */
    memcpy(rows + 12 + 8 + 5 + 16 + 8, rows + 12 + 8, 5);
    memcpy(digests + 12 + 8 + 5 + 16 + 8, digests + 12 + 8, 5);
    WANT(mst_tree_load(tree, rows, rows_len) == MST_MALFORMED);
    WANT(mst_tree_load_digests(tree, digests, digests_len) == MST_MALFORMED);
    WANT(has_root(tree, root));
}

static void hostile(void) {
    static const char *const MARKS[] = {"MSTp", "MSTk", "MSTr", "MSTd"};
    struct mst_tree tree = MST_NO_TREE, other = MST_NO_TREE, later = MST_NO_TREE;
    size_t len, own_len, later_len, cut;
    uint8_t *list, *own, *behind, any[256];
    const uint8_t *held;
    long lists = 0, all;
    unsigned i;
    int are;
    squares(&tree, 300, 1);
    squares(&other, 300, 1);
    WANT(put(&other, 77, 1) == MST_DONE);
    squares(&later, 450, 1);
    for (i = 0; i < 150; i++) {
        uint8_t key[16];
        size_t key_len = key_of(key, i);
        WANT(mst_tree_remove(&later, key, key_len) == MST_DONE);
    }
    list = page_ranges(&tree, &len);
    own = page_ranges(&other, &own_len);
    behind = page_ranges(&later, &later_len);
    WANT(differs(own, own_len, list, len));
    WANT(differs(list, len, behind, later_len));
    ends(list, len);
    cut_lists(&tree, own, own_len, list, len);
    for (cut = 0; cut < len; cut++) WANT(!differs(own, own_len, list, cut));
    for (cut = 0; cut < len; cut++) {
        uint8_t kept = list[cut];
        int bit;
        for (bit = 0; bit < 8; bit++) {
            int is_list;
            list[cut] = (uint8_t)(kept ^ 1 << bit);
            is_list = differs(own, own_len, list, len);
            WANT(differs(behind, later_len, list, len) == is_list);
            lists += is_list;
        }
        list[cut] = kept;
    }
    all = 8 * (long)len;
    printf("%ld lists with a bit turned, of which %ld are lists\n", all, lists);
    for (cut = 0; cut < 20000; cut++) {
        size_t size = draw(sizeof any), at, place = 0;
        struct mst_range range;
        struct mst_row row;
        for (at = 0; at < size; at++) any[at] = (uint8_t)draw(draw(2) ? 4 : 256);
        if (size >= 12 && cut % 5) {
            memcpy(any, MARKS[cut % 5 - 1], 4);
            add_number(any + 4, draw(4));
        }
        differs(own, own_len, any, size);
        held = before_a_wall(any, size);
        while (mst_ranges_next(held, size, &place, &range) == MST_DONE)
            WANT(range.first + range.first_len <= held + size && range.last + range.last_len <= held + size);
        place = draw(300);
        if (mst_ranges_next(held, size, &place, &range) == MST_DONE)
            WANT(range.first + range.first_len <= held + size && range.last + range.last_len <= held + size);
        for (place = 0; mst_rows_next(held, size, &place, &row) == MST_DONE;)
            WANT(row.key + row.key_len <= held + size && row.value + row.value_len <= held + size);
        place = draw(300);
        if (mst_rows_next(held, size, &place, &row) == MST_DONE)
            WANT(row.key + row.key_len <= held + size && row.value + row.value_len <= held + size);
        WANT(mst_tree_load(&tree, held, size) != MST_NO_MEMORY);
        WANT(mst_tree_load_digests(&tree, held, size) != MST_NO_MEMORY);
        place = 0;
        are = mst_rows_next(held, size, &place, &row) != MST_MALFORMED && !memcmp(held, "MSTr", 4);
        WANT(mst_tree_upsert_rows(&tree, held, size, &place) == (are ? MST_DONE : MST_MALFORMED));
    }
    puts("20000 lists of random bytes");
    free(list);
    free(own);
    free(behind);
    mst_tree_free(&tree);
    mst_tree_free(&other);
    mst_tree_free(&later);
}

int main(void) {
    WANT(!strcmp(mst_version(), MST_VERSION));
    roots_and_loads();
    set_rows();
    feeds();
    difference();
    rows();
    digests();
    pages();
    bad_arguments();
    statuses();
    refusals();
    refused_rows();
    rooms();
    hostile();
    return 0;
}
