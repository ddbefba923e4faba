/* The heap of the page's module: what the proved calls ask of the C library's heap, and room for what the page gives to them.
 *
 * A block has a power of two of bytes, of which the first 16 hold the exponent. A block that is given back waits for the next request of
 * its size. The memory of the module grows as far as the browser lets it, and never shrinks. */
#include <stddef.h>
#include <stdint.h>

#define HEAD ((size_t)16)
#define MEMORY_PAGE ((size_t)65536)
#define LARGEST 40

struct block { struct block *next; };
/* What the proved calls are answered: whether there is memory, and where, which is never null. */
struct answer { uint64_t is_there; void *at; };

extern unsigned char __heap_base;
static struct block *given_back[LARGEST + 1];
/* Where the memory begins that no block has yet; 0 before the first request. */
static uintptr_t unused;

static size_t *exponent_of(void *block) {
    return (size_t *)((unsigned char *)block - HEAD);
}

/* The exponent of a block with room for so many bytes, or one above LARGEST. */
static size_t exponent_for(size_t size) {
    size_t exponent = 5;
    while (exponent <= LARGEST && ((size_t)1 << exponent) - HEAD < size) exponent++;
    return exponent;
}

/* Whether the module's memory reaches so far, grown where it has to. */
static int reaches(uintptr_t end) {
    uintptr_t now = __builtin_wasm_memory_size(0) * MEMORY_PAGE;
    if (end > now) __builtin_wasm_memory_grow(0, (end - now + MEMORY_PAGE - 1) / MEMORY_PAGE);
    return end <= __builtin_wasm_memory_size(0) * MEMORY_PAGE;
}

/* Room for so many bytes, on a multiple of 16, or null. */
void *mst_web_take(size_t size) {
    size_t exponent = exponent_for(size);
    void *at;
    if (exponent > LARGEST) return NULL;
    if (given_back[exponent]) {
        at = given_back[exponent];
        given_back[exponent] = given_back[exponent]->next;
        return at;
    }
    if (!unused) unused = ((uintptr_t)&__heap_base + HEAD - 1) & ~(HEAD - 1);
    if (!reaches(unused + ((size_t)1 << exponent))) return NULL;
    at = (void *)(unused + HEAD);
    *exponent_of(at) = exponent;
    unused += (size_t)1 << exponent;
    return at;
}

void mst_web_give_back(void *at) {
    struct block *block = at;
    size_t exponent = *exponent_of(at);
    block->next = given_back[exponent];
    given_back[exponent] = block;
}

static struct answer answered(void *at) {
    static unsigned char nothing;
    return at ? (struct answer){1, at} : (struct answer){0, &nothing};
}

struct answer rattle_alloc(size_t size, size_t align) {
    return answered(mst_web_take(size ? size : align));
}

void rattle_dealloc(void *at) {
    mst_web_give_back(at);
}

struct answer rattle_realloc(void *at, size_t kept, size_t size, size_t align) {
    size_t exponent = exponent_for(size ? size : align);
    void *moved;
    if (exponent == *exponent_of(at)) return answered(at);
    moved = mst_web_take(size ? size : align);
    if (!moved) return answered(NULL);
    __builtin_memcpy(moved, at, kept < size ? kept : size);
    mst_web_give_back(at);
    return answered(moved);
}
