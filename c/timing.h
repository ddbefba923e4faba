/* What the programs that time the library share: their keys, and the time. A file includes it once. */
#include <stdint.h>
#include <stdio.h>
#include <stdlib.h>
#include <string.h>
#include <time.h>

#include "mst.h"

enum { KEY_LEN = 17, VALUE_LEN = 8, ROW_LEN = 8 + KEY_LEN + 8 + VALUE_LEN };

#define want(holds, what) \
    do { if (!(holds)) { fprintf(stderr, "%s: %s\n", __FILE__, what); exit(1); } } while (0)

/* The time of a clock, in nanoseconds. */
static double time_of(clockid_t clock) {
    struct timespec time;
    want(!clock_gettime(clock, &time), "the clock failed");
    return (double)time.tv_sec * 1e9 + (double)time.tv_nsec;
}

/* The key of the next state of xorshift64: `k` and its 16 hex digits. */
static void next_key(uint64_t *state, char key[KEY_LEN + 1]) {
    *state ^= *state << 13;
    *state ^= *state >> 7;
    *state ^= *state << 17;
    snprintf(key, KEY_LEN + 1, "k%016llx", (unsigned long long)*state);
}
