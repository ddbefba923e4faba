/* What the tests of the library share: requests for memory that can be refused, numbers that are drawn, bytes, and bytes right before memory that can't be
 * read. A file includes it once, after `#define _DEFAULT_SOURCE` and the header of the calls that it tests. */
#include <malloc.h>
#include <stdio.h>
#include <stdlib.h>
#include <string.h>
#include <sys/mman.h>
#include <unistd.h>

#define WANT(test) \
    do { if (!(test)) { fprintf(stderr, "%s:%d: %s\n", __FILE__, __LINE__, #test); exit(1); } } while (0)

/* A call that is made again until it isn't refused. */
#define AGAIN(call) \
    do { int status; while ((status = (call)) == MST_NO_MEMORY) (*refused)++; WANT(status == MST_DONE); } while (0)

/* How many requests for memory were made, and which of them is refused (the linker puts these calls in place of the C library's); how many bytes of them are
 * held, and the most that were. */
static long made, refused_at, held, most;
void *__real_malloc(size_t size);
void *__real_realloc(void *old, size_t size);
void __real_free(void *bytes);
void *__wrap_malloc(size_t size);
void *__wrap_realloc(void *old, size_t size);
void __wrap_free(void *bytes);

static void *hold(void *bytes) {
    held += (long)malloc_usable_size(bytes);
    if (held > most) most = held;
    return bytes;
}

void *__wrap_malloc(size_t size) {
    return ++made == refused_at ? NULL : hold(__real_malloc(size));
}

void *__wrap_realloc(void *old, size_t size) {
    long before = (long)malloc_usable_size(old);
    void *bytes = ++made == refused_at ? NULL : __real_realloc(old, size);
    if (!bytes) return NULL;
    held -= before;
    return hold(bytes);
}

void __wrap_free(void *bytes) {
    held -= (long)malloc_usable_size(bytes);
    __real_free(bytes);
}

/* A number below another, by xorshift64. */
static inline uint64_t draw(uint64_t below) {
    static uint64_t drawn = 88172645463325252u;
    drawn ^= drawn << 13;
    drawn ^= drawn >> 7;
    drawn ^= drawn << 17;
    return drawn % below;
}

struct bytes {
    uint8_t *at;
    size_t len;
};

/* Room for bytes, which no test refuses. */
static inline struct bytes room(size_t len) {
    struct bytes bytes = {__real_malloc(len ? len : 1), len};
    WANT(bytes.at);
    return bytes;
}

static inline int same(struct bytes a, struct bytes b) {
    return a.len == b.len && !memcmp(a.at, b.at, a.len);
}

/* The bytes where they end right before memory that can't be read, so that a step beyond them ends the program. They stay until the
 * next call. */
static inline uint8_t *before_a_wall(const uint8_t *bytes, size_t len) {
    enum { ROOM = 1 << 16 };
    static uint8_t *wall;
    if (!wall) {
        wall = mmap(NULL, ROOM + (size_t)sysconf(_SC_PAGESIZE), PROT_READ | PROT_WRITE, MAP_PRIVATE | MAP_ANONYMOUS, -1, 0);
        WANT(wall != MAP_FAILED);
        WANT(!mprotect(wall + ROOM, (size_t)sysconf(_SC_PAGESIZE), PROT_NONE));
    }
    WANT(len <= ROOM);
    if (len) memcpy(wall + ROOM - len, bytes, len);
    return wall + ROOM - len;
}
