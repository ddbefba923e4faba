/* A replica that catches up with another program over standard input and output, such as one in Python or Rust, and answers it. The first argument says
 * what it does first, `asks` or `answers`; the peer does the other. The others are its rows, each KEY=VALUE; what it has at the end goes to standard
 * error. */
#include <string.h>

#include "mst_replica.h"
#include "over_pipes.h"

/* Sends the message that the replica keeps, which is copied out for that. */
static void send_kept(struct mst_replica *replica, size_t len) {
    uint8_t *message = room(len);
    check(mst_replica_message(replica, message, len, &len));
    send_bytes(message, len);
    free(message);
}

/* Answers a peer that catches up, until its message has no bytes. */
static void serve(struct mst_replica *replica) {
    int questions, status;
    for (questions = 0; questions < MOST_QUESTIONS; questions++) {
        size_t len, reply_len;
        uint8_t *question = receive(&len);
        if (!len) {
            free(question);
            return;
        }
        status = mst_replica_answer(replica, question, len, &reply_len);
        free(question);
        if (status == MST_NO_MEMORY || status == MST_BAD_ARGUMENT) check(status);
        send_kept(replica, reply_len); /* a refusal, too */
        check(status);
    }
    fail("the peer asks on", 0);
}

/* Brings what the peer has, and says how many rows came. */
static size_t catch_up(struct mst_replica *replica) {
    size_t len, joined = 0;
    int questions;
    check(mst_replica_ask(replica, &len));
    for (questions = 0; len && questions < MOST_QUESTIONS; questions++) {
        size_t reply_len;
        uint8_t *reply;
        send_kept(replica, len);
        reply = receive(&reply_len);
        check(mst_replica_take(replica, reply, reply_len, &len, &joined));
        free(reply);
    }
    if (len) fail("the peer isn't done", 0);
    send_bytes(NULL, 0);
    return joined;
}

static void print(struct mst_replica *replica) {
    size_t len, at = 0;
    uint8_t *rows;
    struct mst_row row;
    if (mst_replica_rows(replica, NULL, 0, &len) != MST_TOO_SHORT) fail("the rows aren't told", 0);
    rows = room(len);
    check(mst_replica_rows(replica, rows, len, &len));
    while (mst_rows_next(rows, len, &at, &row) == MST_DONE)
        fprintf(stderr, "%.*s=%.*s\n", (int)row.key_len, (const char *)row.key, (int)row.value_len, (const char *)row.value);
    free(rows);
}

int main(int count, char **words) {
    struct mst_replica replica = MST_NO_REPLICA;
    int asks_first = count > 1 && !strcmp(words[1], "asks");
    size_t came = 0;
    int at;
    check(mst_replica_new(&replica));
    for (at = 2; at < count; at++) {
        size_t key = strcspn(words[at], "=");
        const char *value = words[at] + key + (words[at][key] == '=');
        check(mst_replica_put(&replica, (const uint8_t *)words[at], key, (const uint8_t *)value, strlen(value)));
    }
    if (asks_first) came = catch_up(&replica);
    serve(&replica);
    if (!asks_first) came = catch_up(&replica);
    print(&replica);
    fprintf(stderr, "%zu rows came\n", came);
    mst_replica_free(&replica);
    return 0;
}
