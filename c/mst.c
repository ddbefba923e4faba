/* The calls of mst.h: each tests its pointers for null and its lengths, and then makes the proved call, which can't. */
#include "mst.h"
#include "checks.h"

struct spot { size_t first_at, first_len, last_at, last_len, digest_at; };

/* The proved calls take these types to be so. */
typedef char handle_is_one_pointer[sizeof(struct mst_tree) == sizeof(void *) ? 1 : -1];
typedef char spot_is_5_sizes[sizeof(struct spot) == 5 * sizeof(size_t) ? 1 : -1];

uint32_t mst_proved_tree_new(struct mst_tree *, const struct bytes16 *, uint8_t, uint8_t, uint8_t);
uint32_t mst_proved_tree_clone(struct mst_tree *, struct mst_tree *);
void mst_proved_tree_free(struct mst_tree *);
uint32_t mst_proved_tree_len(struct mst_tree *, size_t *);
uint32_t mst_proved_tree_find(struct mst_tree *, const uint8_t *, size_t, struct bytes16 *);
uint32_t mst_proved_tree_upsert(struct mst_tree *, const uint8_t *, size_t, const uint8_t *, size_t);
uint32_t mst_proved_tree_upsert_digest(struct mst_tree *, const uint8_t *, size_t, const struct bytes16 *);
uint32_t mst_proved_tree_upsert_rows(struct mst_tree *, const uint8_t *, size_t, size_t *);
uint32_t mst_proved_tree_remove(struct mst_tree *, const uint8_t *, size_t);
uint32_t mst_proved_tree_load(struct mst_tree *, const uint8_t *, size_t);
uint32_t mst_proved_tree_load_digests(struct mst_tree *, const uint8_t *, size_t);
uint32_t mst_proved_tree_root_hash(struct mst_tree *, struct bytes16 *);
uint32_t mst_proved_tree_page_ranges(struct mst_tree *, uint8_t *, size_t, size_t *);
uint32_t mst_proved_tree_digests(struct mst_tree *, uint8_t *, size_t, size_t *);
uint32_t mst_proved_tree_pages(struct mst_tree *, uint8_t *, size_t, size_t *);
uint32_t mst_proved_diff(const uint8_t *, size_t, const uint8_t *, size_t, uint8_t *, size_t, size_t *);
uint32_t mst_proved_ranges_next(const uint8_t *, size_t, size_t *, struct spot *);
uint32_t mst_proved_rows_next(const uint8_t *, size_t, size_t *, struct spot *);

const char *mst_version(void) {
    return MST_VERSION;
}

int mst_tree_new_as(struct mst_tree *out, const uint8_t key[16], uint8_t level_base, uint8_t page_format, uint8_t key_feed) {
    POINTER(out);
    POINTER(key);
    return (int)mst_proved_tree_new(out, (const struct bytes16 *)key, level_base, page_format, key_feed);
}

int mst_tree_new_with(struct mst_tree *out, const uint8_t key[16], uint8_t level_base, uint8_t page_format) {
    return mst_tree_new_as(out, key, level_base, page_format, MST_FEED_BYTES);
}

int mst_tree_new(struct mst_tree *out) {
    static const uint8_t zero_key[16];
    return mst_tree_new_with(out, zero_key, 16, 1);
}

int mst_tree_clone(struct mst_tree *tree, struct mst_tree *out) {
    POINTER(tree);
    POINTER(out);
    if (tree == out) return MST_BAD_ARGUMENT;
    return (int)mst_proved_tree_clone(tree, out);
}

void mst_tree_free(struct mst_tree *tree) {
    if (tree) mst_proved_tree_free(tree);
}

int mst_tree_len(struct mst_tree *tree, size_t *out) {
    POINTER(tree);
    POINTER(out);
    return (int)mst_proved_tree_len(tree, out);
}

int mst_tree_find(struct mst_tree *tree, const uint8_t *key, size_t key_len, uint8_t digest[16]) {
    POINTER(tree);
    POINTER(digest);
    BYTES(key, key_len);
    return (int)mst_proved_tree_find(tree, key, key_len, (struct bytes16 *)digest);
}

int mst_tree_upsert(struct mst_tree *tree, const uint8_t *key, size_t key_len, const uint8_t *value, size_t value_len) {
    POINTER(tree);
    BYTES(key, key_len);
    BYTES(value, value_len);
    return (int)mst_proved_tree_upsert(tree, key, key_len, value, value_len);
}

int mst_tree_upsert_digest(struct mst_tree *tree, const uint8_t *key, size_t key_len, const uint8_t digest[16]) {
    POINTER(tree);
    POINTER(digest);
    BYTES(key, key_len);
    return (int)mst_proved_tree_upsert_digest(tree, key, key_len, (const struct bytes16 *)digest);
}

int mst_tree_upsert_rows(struct mst_tree *tree, const uint8_t *rows, size_t rows_len, size_t *done) {
    POINTER(tree);
    POINTER(done);
    BYTES(rows, rows_len);
    return (int)mst_proved_tree_upsert_rows(tree, rows, rows_len, done);
}

int mst_tree_remove(struct mst_tree *tree, const uint8_t *key, size_t key_len) {
    POINTER(tree);
    BYTES(key, key_len);
    return (int)mst_proved_tree_remove(tree, key, key_len);
}

int mst_tree_load(struct mst_tree *tree, const uint8_t *rows, size_t rows_len) {
    POINTER(tree);
    BYTES(rows, rows_len);
    return (int)mst_proved_tree_load(tree, rows, rows_len);
}

int mst_tree_load_digests(struct mst_tree *tree, const uint8_t *list, size_t list_len) {
    POINTER(tree);
    BYTES(list, list_len);
    return (int)mst_proved_tree_load_digests(tree, list, list_len);
}

int mst_tree_root_hash(struct mst_tree *tree, uint8_t out[16]) {
    POINTER(tree);
    POINTER(out);
    return (int)mst_proved_tree_root_hash(tree, (struct bytes16 *)out);
}

int mst_tree_page_ranges(struct mst_tree *tree, uint8_t *out, size_t out_len, size_t *needed) {
    POINTER(tree);
    POINTER(needed);
    BYTES(out, out_len);
    return (int)mst_proved_tree_page_ranges(tree, out, out_len, needed);
}

int mst_tree_digests(struct mst_tree *tree, uint8_t *out, size_t out_len, size_t *needed) {
    POINTER(tree);
    POINTER(needed);
    BYTES(out, out_len);
    return (int)mst_proved_tree_digests(tree, out, out_len, needed);
}

int mst_tree_pages(struct mst_tree *tree, uint8_t *out, size_t out_len, size_t *needed) {
    POINTER(tree);
    POINTER(needed);
    BYTES(out, out_len);
    return (int)mst_proved_tree_pages(tree, out, out_len, needed);
}

int mst_diff(const uint8_t *local, size_t local_len, const uint8_t *peer, size_t peer_len, uint8_t *out, size_t out_len,
             size_t *needed) {
    POINTER(needed);
    BYTES(local, local_len);
    BYTES(peer, peer_len);
    BYTES(out, out_len);
    return (int)mst_proved_diff(local, local_len, peer, peer_len, out, out_len, needed);
}

int mst_ranges_next(const uint8_t *list, size_t list_len, size_t *at, struct mst_range *out) {
    struct spot spot;
    uint32_t status;
    POINTER(at);
    POINTER(out);
    BYTES(list, list_len);
    spot = (struct spot){0};
    status = mst_proved_ranges_next(list, list_len, at, &spot);
    if (status != MST_DONE) return (int)status;
    out->first = list + spot.first_at;
    out->first_len = spot.first_len;
    out->last = list + spot.last_at;
    out->last_len = spot.last_len;
    out->digest = spot.digest_at ? list + spot.digest_at : NULL;
    return MST_DONE;
}

int mst_rows_next(const uint8_t *list, size_t list_len, size_t *at, struct mst_row *out) {
    struct spot spot;
    uint32_t status;
    POINTER(at);
    POINTER(out);
    BYTES(list, list_len);
    spot = (struct spot){0};
    status = mst_proved_rows_next(list, list_len, at, &spot);
    if (status != MST_DONE) return (int)status;
    out->key = list + spot.first_at;
    out->key_len = spot.first_len;
    out->value = list + spot.last_at;
    out->value_len = spot.last_len;
    return MST_DONE;
}
