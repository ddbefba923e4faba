/* What preloaded libraries share that fail one call: its number, the first being 1, and how many calls came. */
#include <dlfcn.h>
#include <stdio.h>
#include <stdlib.h>

static long calls, at, later;

/* The function that the program would call. */
#define NEXT(name) __typeof__(&name) next = (__typeof__(&name))dlsym(RTLD_NEXT, #name)

/* Reads from the environment at which call to fail, and whether at all later ones too. */
static void read_number(const char *at_name, const char *later_name) {
    const char *number = getenv(at_name);
    at = number ? atol(number) : 0;
    later = getenv(later_name) != NULL;
}

/* Writes how many calls came to the file that the environment names, and how many of them were of another kind, unless that is negative. */
static void write_counts(const char *count_name, long of_kind) {
    const char *path = getenv(count_name);
    long made = calls;
    at = 0;
    FILE *file = path ? fopen(path, "w") : NULL;
    if (file) {
        fprintf(file, of_kind < 0 ? "%ld\n" : "%ld %ld\n", made, of_kind);
        fclose(file);
    }
}
