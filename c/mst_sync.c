/* The calls of mst_sync.h: each tests its pointers for null and its lengths, and then makes the proved call, which can't. */
#include "mst_sync.h"
#include "checks.h"

/* The proved calls take a handle to be so. */
typedef char handle_is_one_pointer[sizeof(struct mst_sync) == sizeof(void *) ? 1 : -1];

uint32_t mst_proved_sync_new(struct mst_sync *, const struct bytes16 *, uint8_t, uint8_t);
void mst_proved_sync_free(struct mst_sync *);
uint32_t mst_proved_sync_set(struct mst_sync *, const uint8_t *, size_t, const uint8_t *, size_t);
uint32_t mst_proved_sync_remove(struct mst_sync *, const uint8_t *, size_t);
uint32_t mst_proved_sync_find(struct mst_sync *, const uint8_t *, size_t, struct bytes16 *);
uint32_t mst_proved_sync_len(struct mst_sync *, size_t *);
uint32_t mst_proved_sync_root_hash(struct mst_sync *, struct bytes16 *);
uint32_t mst_proved_sync_message(struct mst_sync *, uint8_t *, size_t, size_t *);
uint32_t mst_proved_sync_list(struct mst_sync *, uint8_t *, size_t, size_t *);
uint32_t mst_proved_sync_ask(struct mst_sync *, size_t *);
uint32_t mst_proved_sync_take(struct mst_sync *, const uint8_t *, size_t, size_t *, size_t *);
uint32_t mst_proved_sync_answer(struct mst_sync *, const uint8_t *, size_t, size_t *, size_t *);
uint32_t mst_proved_sync_answer_with(struct mst_sync *, const uint8_t *, size_t, const uint8_t *, size_t, uint8_t, size_t, size_t *);

int mst_sync_new_with(struct mst_sync *out, const uint8_t key[16], uint8_t level_base, uint8_t page_format) {
    POINTER(out);
    POINTER(key);
    return (int)mst_proved_sync_new(out, (const struct bytes16 *)key, level_base, page_format);
}

int mst_sync_new(struct mst_sync *out) {
    static const uint8_t zero_key[16];
    return mst_sync_new_with(out, zero_key, 16, 1);
}

void mst_sync_free(struct mst_sync *sync) {
    if (sync) mst_proved_sync_free(sync);
}

int mst_sync_set(struct mst_sync *sync, const uint8_t *key, size_t key_len, const uint8_t *value, size_t value_len) {
    POINTER(sync);
    BYTES(key, key_len);
    BYTES(value, value_len);
    return (int)mst_proved_sync_set(sync, key, key_len, value, value_len);
}

int mst_sync_remove(struct mst_sync *sync, const uint8_t *key, size_t key_len) {
    POINTER(sync);
    BYTES(key, key_len);
    return (int)mst_proved_sync_remove(sync, key, key_len);
}

int mst_sync_find(struct mst_sync *sync, const uint8_t *key, size_t key_len, uint8_t digest[16]) {
    POINTER(sync);
    POINTER(digest);
    BYTES(key, key_len);
    return (int)mst_proved_sync_find(sync, key, key_len, (struct bytes16 *)digest);
}

int mst_sync_len(struct mst_sync *sync, size_t *out) {
    POINTER(sync);
    POINTER(out);
    return (int)mst_proved_sync_len(sync, out);
}

int mst_sync_root_hash(struct mst_sync *sync, uint8_t out[16]) {
    POINTER(sync);
    POINTER(out);
    return (int)mst_proved_sync_root_hash(sync, (struct bytes16 *)out);
}

int mst_sync_message(struct mst_sync *sync, uint8_t *out, size_t out_len, size_t *needed) {
    POINTER(sync);
    POINTER(needed);
    BYTES(out, out_len);
    return (int)mst_proved_sync_message(sync, out, out_len, needed);
}

int mst_sync_list(struct mst_sync *sync, uint8_t *out, size_t out_len, size_t *needed) {
    POINTER(sync);
    POINTER(needed);
    BYTES(out, out_len);
    return (int)mst_proved_sync_list(sync, out, out_len, needed);
}

int mst_sync_ask(struct mst_sync *sync, size_t *message_len) {
    POINTER(sync);
    POINTER(message_len);
    return (int)mst_proved_sync_ask(sync, message_len);
}

int mst_sync_take(struct mst_sync *sync, const uint8_t *reply, size_t reply_len, size_t *message_len, size_t *list_len) {
    POINTER(sync);
    POINTER(message_len);
    POINTER(list_len);
    APART(message_len, list_len);
    BYTES(reply, reply_len);
    return (int)mst_proved_sync_take(sync, reply, reply_len, message_len, list_len);
}

int mst_sync_answer(struct mst_sync *sync, const uint8_t *question, size_t question_len, size_t *message_len, size_t *list_len) {
    POINTER(sync);
    POINTER(message_len);
    POINTER(list_len);
    APART(message_len, list_len);
    BYTES(question, question_len);
    return (int)mst_proved_sync_answer(sync, question, question_len, message_len, list_len);
}

int mst_sync_answer_with(struct mst_sync *sync, const uint8_t *question, size_t question_len, const uint8_t *rows, size_t rows_len, int is_all,
                         size_t most_bytes, size_t *message_len) {
    POINTER(sync);
    POINTER(message_len);
    BYTES(question, question_len);
    BYTES(rows, rows_len);
    return (int)mst_proved_sync_answer_with(sync, question, question_len, rows, rows_len, (uint8_t)(is_all != 0), most_bytes, message_len);
}
