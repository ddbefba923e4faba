/* Stops the program at the call on a file whose number is in STOP_AT, the first being 1, where STOP_HOW says how: 'before' and 'after' end
   the process beside the call, 'half' in the middle of a write, 'refuse' fails the call, and 'full' fails it for want of room; these two
   with STOP_LATER fail all later ones too. It writes at the end to STOP_COUNT how many such calls came, and how many of them were syncs. It
   is preloaded by tests/store_faults. */
#define _GNU_SOURCE
#include "preload.h"
#include <errno.h>
#include <fcntl.h>
#include <signal.h>
#include <string.h>
#include <sys/stat.h>
#include <sys/types.h>
#include <unistd.h>

static long syncs;
static const char *how = "";

__attribute__((constructor)) static void begin(void) {
    const char *way = getenv("STOP_HOW");
    how = way ? way : "";
    read_number("STOP_AT", "STOP_LATER");
}

static int is_file(int file) {
    struct stat about;
    return fstat(file, &about) == 0 && S_ISREG(about.st_mode);
}

static void end_here(void) { raise(SIGKILL); }

static int is_full(void) { return !strcmp(how, "full"); }

/* 0: as ever, 1: refused, 2: this is the call */
static int turn(void) {
    calls++;
    int refuses = !strcmp(how, "refuse") || is_full();
    if (at && calls > at && later && refuses) return 1;
    if (!at || calls != at) return 0;
    if (refuses) return 1;
    if (!strcmp(how, "before")) end_here();
    return 2;
}

#define REFUSED (errno = is_full() ? ENOSPC : EIO, -1)
#define AS_EVER(call) { __typeof__(call) done = call; if (t == 2) end_here(); return done; }

/* A write of this many bytes, which is counted or not. */
#define WRITE(is_counted, call) \
    int t = (is_counted) ? turn() : 0; \
    if (t == 1) return REFUSED; \
    if (t == 2 && !strcmp(how, "half")) size /= 2; \
    AS_EVER(call)

ssize_t pwrite64(int file, const void *from, size_t size, off64_t place) { NEXT(pwrite64); WRITE(1, next(file, from, size, place)) }
ssize_t pwrite(int file, const void *from, size_t size, off_t place) { NEXT(pwrite); WRITE(1, next(file, from, size, place)) }
ssize_t write(int file, const void *from, size_t size) { NEXT(write); WRITE(is_file(file), next(file, from, size)) }
int fsync(int file) { NEXT(fsync); syncs++; int t = turn(); if (t == 1) return REFUSED; AS_EVER(next(file)) }
int fdatasync(int file) { NEXT(fdatasync); syncs++; int t = turn(); if (t == 1) return REFUSED; AS_EVER(next(file)) }
int ftruncate(int file, off_t size) { NEXT(ftruncate); int t = turn(); if (t == 1) return REFUSED; AS_EVER(next(file, size)) }
int ftruncate64(int file, off64_t size) { NEXT(ftruncate64); int t = turn(); if (t == 1) return REFUSED; AS_EVER(next(file, size)) }
int unlink(const char *path) { NEXT(unlink); int t = turn(); if (t == 1) return REFUSED; AS_EVER(next(path)) }
int unlinkat(int folder, const char *path, int flags) { NEXT(unlinkat); int t = turn(); if (t == 1) return REFUSED; AS_EVER(next(folder, path, flags)) }

__attribute__((destructor)) static void end(void) { write_counts("STOP_COUNT", syncs); }
