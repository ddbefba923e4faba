/* Two replicas that come to hold the same rows: each asks the other, message by message, for what differs. */
#include <stdio.h>
#include <stdlib.h>
#include <string.h>

#include "mst_replica.h"

static void check(int status) {
    if (status == MST_DONE) return;
    fprintf(stderr, "status %d\n", status);
    exit(1);
}

/* A value has its time in front, so that the later one is the greater: four digits here, and else eight bytes, the highest first. */
static void put(struct mst_replica *replica, const char *key, const char *value) {
    check(mst_replica_put(replica, (const uint8_t *)key, strlen(key), (const uint8_t *)value, strlen(value)));
}

/* The message that a replica keeps, of this many bytes: these go to the peer. */
static uint8_t *message(struct mst_replica *replica, size_t len) {
    uint8_t *bytes = malloc(len);
    if (!bytes) exit(1);
    check(mst_replica_message(replica, bytes, len, &len));
    return bytes;
}

/* Brings what `peer` has and `replica` lacks, and says how many rows these are. A pipe or a socket would stand between the two. */
static size_t catch_up(struct mst_replica *replica, struct mst_replica *peer) {
    size_t len, reply_len, joined = 0;
    check(mst_replica_ask(replica, &len));
    while (len) {
        uint8_t *question = message(replica, len), *reply;
        check(mst_replica_answer(peer, question, len, &reply_len));
        reply = message(peer, reply_len);
        check(mst_replica_take(replica, reply, reply_len, &len, &joined));
        free(question);
        free(reply);
    }
    return joined;
}

static void print(struct mst_replica *replica) {
    size_t len, at = 0;
    uint8_t *rows;
    struct mst_row row;
    if (mst_replica_rows(replica, NULL, 0, &len) != MST_TOO_SHORT || !(rows = malloc(len))) exit(1);
    check(mst_replica_rows(replica, rows, len, &len));
    while (mst_rows_next(rows, len, &at, &row) == MST_DONE)
        printf("  %.*s: %.*s\n", (int)row.key_len, (const char *)row.key, (int)row.value_len, (const char *)row.value);
    free(rows);
}

int main(void) {
    struct mst_replica office = MST_NO_REPLICA, laptop = MST_NO_REPLICA;
    size_t first, second;
    check(mst_replica_new(&office));
    check(mst_replica_new(&laptop));
    put(&office, "apple", "1130 three");
    put(&office, "banana", "1131 five");
    put(&office, "cherry", "1132 one");
    put(&laptop, "banana", "1207 seven");
    put(&laptop, "dates", "1208 two");
    first = catch_up(&office, &laptop);
    second = catch_up(&laptop, &office);
    printf("%zu rows came to the office, %zu to the laptop\n", first, second);
    puts("the office has");
    print(&office);
    puts("the laptop has");
    print(&laptop);
    mst_replica_free(&office);
    mst_replica_free(&laptop);
    return 0;
}
