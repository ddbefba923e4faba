/* What mst.c, mst_replica.c and mst_sync.c share: how they test pointers and lengths. Each includes it once, after the header of its calls. */

struct bytes16 { uint8_t bytes[16]; };

/* The proved calls take sizes to be so; a compiler refuses an array of less than no items. */
typedef char size_is_8_bytes[sizeof(size_t) == 8 ? 1 : -1];

/* What a slice of no bytes points to. */
static uint8_t nothing[1];

/* Refuses a null pointer to bytes, and a length that no memory has; a null pointer to no bytes gives way to one that isn't null. */
#define BYTES(pointer, length) \
    do { \
        if ((length) > PTRDIFF_MAX || ((length) && !(pointer))) return MST_BAD_ARGUMENT; \
        if (!(length)) (pointer) = nothing; \
    } while (0)
#define POINTER(pointer) \
    do { if (!(pointer)) return MST_BAD_ARGUMENT; } while (0)

/* Refuses one place for two numbers: the proved calls take what they write to be apart. */
#define APART(one, other) \
    do { if ((one) == (other)) return MST_BAD_ARGUMENT; } while (0)
