/* The product of two numbers of 128 bits, which clang calls where a product of two of 64 bits is tested for overflow: WebAssembly has none. */
#include <stdint.h>

/* The product of two numbers of 64 bits, by their halves. */
static unsigned __int128 product(uint64_t one, uint64_t other) {
    uint64_t low = (one & UINT32_MAX) * (other & UINT32_MAX);
    uint64_t first = (one >> 32) * (other & UINT32_MAX) + (low >> 32);
    uint64_t second = (one & UINT32_MAX) * (other >> 32) + (first & UINT32_MAX);
    uint64_t high = (one >> 32) * (other >> 32) + (first >> 32) + (second >> 32);
    return (unsigned __int128)high << 64 | second << 32 | (low & UINT32_MAX);
}

unsigned __int128 __multi3(unsigned __int128 one, unsigned __int128 other) {
    uint64_t high = (uint64_t)one * (uint64_t)(other >> 64) + (uint64_t)(one >> 64) * (uint64_t)other;
    return product((uint64_t)one, (uint64_t)other) + ((unsigned __int128)high << 64);
}
