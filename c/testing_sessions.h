/* What the tests of catch-ups share: the messages of a session, which are altered and cut, and lives of which each request for memory is refused. A file
 * includes it once, after testing.h. */

static const uint8_t KEY[16] = "a key of SipHash";

/* How many rows a catch-up joined, and how many bytes and messages went both ways. */
struct cost {
    size_t joined, bytes, messages;
};

/* The messages of a session, each question with its reply; and how often altered ones were refused. */
enum { MOST = 64 };
static struct bytes questions[MOST], replies[MOST];
static size_t rounds;
static long refusals_seen;

/* A call that is given altered bytes of this round. */
typedef void tried(void *with, size_t round, struct bytes altered);

/* Tries bytes with each of them altered by each mask, and cut before each of them. */
static void alter(struct bytes bytes, const uint8_t *masks, size_t count, tried *tried, void *with, size_t round) {
    size_t at, mask;
    for (at = 0; at < bytes.len; at++) {
        struct bytes cut = {bytes.at, at};
        tried(with, round, cut);
        for (mask = 0; mask < count; mask++) {
            bytes.at[at] ^= masks[mask];
            tried(with, round, bytes);
            bytes.at[at] ^= masks[mask];
        }
    }
}

/* Tries each message of the session so, and lets the session go. */
static void alter_session(tried *question, void *answering, tried *reply, void *asking) {
    static const uint8_t of_questions[] = {1, 128, 255}, of_replies[] = {85};
    size_t round, total = 0;
    for (round = 0; round < rounds; round++) {
        alter(questions[round], of_questions, sizeof of_questions, question, answering, round);
        alter(replies[round], of_replies, sizeof of_replies, reply, asking, round);
        total += questions[round].len + replies[round].len;
    }
    for (round = 0; round < rounds; round++) {
        __real_free(questions[round].at);
        __real_free(replies[round].at);
    }
    printf("%zu messages of %zu bytes, each byte altered and each cut: refused %ld times\n", 2 * rounds, total, refusals_seen);
}

/* Refuses each request for memory of a life in turn. A life makes each call again until it isn't refused, counts the refusals, lets all go, and returns what
 * is there at its end, which is always the same. */
static void refuse_each(struct bytes (*life)(int *refused)) {
    struct bytes end, again;
    int refused = 0;
    long all, at, spared = 0;
    made = held = 0;
    end = life(&refused);
    all = made;
    WANT(!refused && !held);
    for (at = 1; at <= all; at++) {
        int here = 0;
        made = 0;
        refused_at = at;
        again = life(&here);
        WANT(here <= 1 && same(end, again) && !held);
        spared += !here;
        __real_free(again.at);
    }
    refused_at = 0;
    WANT(spared * 20 < all);
    __real_free(end.at);
    printf("%ld requests for memory, each refused in turn; the calls do without %ld of them\n", all, spared);
}
