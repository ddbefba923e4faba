/* The calls of mst_replica.h: each tests its pointers for null and its lengths, and then makes the proved call, which can't. */
#include "mst_replica.h"
#include "checks.h"

/* The proved calls take a handle to be so. */
typedef char handle_is_one_pointer[sizeof(struct mst_replica) == sizeof(void *) ? 1 : -1];

uint32_t mst_proved_replica_new(struct mst_replica *, const struct bytes16 *, uint8_t, uint8_t);
void mst_proved_replica_free(struct mst_replica *);
uint32_t mst_proved_replica_put(struct mst_replica *, const uint8_t *, size_t, const uint8_t *, size_t);
uint32_t mst_proved_replica_get(struct mst_replica *, const uint8_t *, size_t, uint8_t *, size_t, size_t *);
uint32_t mst_proved_replica_len(struct mst_replica *, size_t *);
uint32_t mst_proved_replica_root_hash(struct mst_replica *, struct bytes16 *);
uint32_t mst_proved_replica_rows(struct mst_replica *, uint8_t *, size_t, size_t *);
uint32_t mst_proved_replica_message(struct mst_replica *, uint8_t *, size_t, size_t *);
uint32_t mst_proved_replica_answer(struct mst_replica *, const uint8_t *, size_t, size_t *);
uint32_t mst_proved_replica_ask(struct mst_replica *, size_t *);
uint32_t mst_proved_replica_take(struct mst_replica *, const uint8_t *, size_t, size_t *, size_t *);

int mst_replica_new_with(struct mst_replica *out, const uint8_t key[16], uint8_t level_base, uint8_t page_format) {
    POINTER(out);
    POINTER(key);
    return (int)mst_proved_replica_new(out, (const struct bytes16 *)key, level_base, page_format);
}

int mst_replica_new(struct mst_replica *out) {
    static const uint8_t zero_key[16];
    return mst_replica_new_with(out, zero_key, 16, 1);
}

void mst_replica_free(struct mst_replica *replica) {
    if (replica) mst_proved_replica_free(replica);
}

int mst_replica_put(struct mst_replica *replica, const uint8_t *key, size_t key_len, const uint8_t *value, size_t value_len) {
    POINTER(replica);
    BYTES(key, key_len);
    BYTES(value, value_len);
    return (int)mst_proved_replica_put(replica, key, key_len, value, value_len);
}

int mst_replica_get(struct mst_replica *replica, const uint8_t *key, size_t key_len, uint8_t *out, size_t out_len, size_t *needed) {
    POINTER(replica);
    POINTER(needed);
    BYTES(key, key_len);
    BYTES(out, out_len);
    return (int)mst_proved_replica_get(replica, key, key_len, out, out_len, needed);
}

int mst_replica_len(struct mst_replica *replica, size_t *out) {
    POINTER(replica);
    POINTER(out);
    return (int)mst_proved_replica_len(replica, out);
}

int mst_replica_root_hash(struct mst_replica *replica, uint8_t out[16]) {
    POINTER(replica);
    POINTER(out);
    return (int)mst_proved_replica_root_hash(replica, (struct bytes16 *)out);
}

int mst_replica_rows(struct mst_replica *replica, uint8_t *out, size_t out_len, size_t *needed) {
    POINTER(replica);
    POINTER(needed);
    BYTES(out, out_len);
    return (int)mst_proved_replica_rows(replica, out, out_len, needed);
}

int mst_replica_message(struct mst_replica *replica, uint8_t *out, size_t out_len, size_t *needed) {
    POINTER(replica);
    POINTER(needed);
    BYTES(out, out_len);
    return (int)mst_proved_replica_message(replica, out, out_len, needed);
}

int mst_replica_answer(struct mst_replica *replica, const uint8_t *question, size_t question_len, size_t *message_len) {
    POINTER(replica);
    POINTER(message_len);
    BYTES(question, question_len);
    return (int)mst_proved_replica_answer(replica, question, question_len, message_len);
}

int mst_replica_ask(struct mst_replica *replica, size_t *message_len) {
    POINTER(replica);
    POINTER(message_len);
    return (int)mst_proved_replica_ask(replica, message_len);
}

int mst_replica_take(struct mst_replica *replica, const uint8_t *reply, size_t reply_len, size_t *message_len, size_t *joined) {
    POINTER(replica);
    POINTER(message_len);
    POINTER(joined);
    APART(message_len, joined);
    BYTES(reply, reply_len);
    return (int)mst_proved_replica_take(replica, reply, reply_len, message_len, joined);
}
