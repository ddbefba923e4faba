/* Messages over standard input and output, for the examples replica_over_pipes.c and sync_over_pipes.c: each goes after its length, in eight bytes, the
 * lowest first. Over a socket it would be the same, with a timeout on it: a peer that sends nothing is waited for here. */
#ifndef OVER_PIPES_H
#define OVER_PIPES_H

#include <stdio.h>
#include <stdlib.h>
#include <unistd.h>

#include "mst.h"

/* What is taken of a peer: bytes of a message, and questions. */
#define MOST_BYTES ((size_t)1 << 28)
#define MOST_QUESTIONS 65536

static void fail(const char *reason, int status) {
    fprintf(stderr, "%s (status %d)\n", reason, status);
    exit(1);
}

static void check(int status) {
    if (status != MST_DONE) fail("a call isn't done", status);
}

static uint8_t *room(size_t len) {
    uint8_t *bytes = malloc(len ? len : 1);
    if (!bytes) fail("memory is refused", MST_NO_MEMORY);
    return bytes;
}

/* Reads or writes all of the bytes. */
static void carry(int reads, uint8_t *bytes, size_t len) {
    while (len) {
        ssize_t done = reads ? read(0, bytes, len) : write(1, bytes, len);
        if (done <= 0) fail("the peer ended", 0);
        bytes += done;
        len -= (size_t)done;
    }
}

static void send_bytes(uint8_t *message, size_t len) {
    uint8_t front[8];
    int at;
    for (at = 0; at < 8; at++) front[at] = (uint8_t)((uint64_t)len >> 8 * at);
    carry(0, front, 8);
    carry(0, message, len);
}

/* The message that comes next. One above the limit ends the program. */
static uint8_t *receive(size_t *len) {
    uint8_t front[8], *message;
    uint64_t size = 0;
    int at;
    carry(1, front, 8);
    for (at = 7; at >= 0; at--) size = size << 8 | front[at];
    if (size > MOST_BYTES) fail("a message is above the limit", 0);
    message = room((size_t)size);
    carry(1, message, (size_t)size);
    *len = (size_t)size;
    return message;
}

#endif
