/* Shifts the time of day by the milliseconds of CLOCK_SHIFT, for the program that it is preloaded into by tests/week. The other clocks, by
   which programs wait, stay as they are. `mst` asks clock_gettime alone; the other two are for builds that ask them. It calls the system
   and not the libc behind it, which a look-up in the middle of a `free` would confuse (address sanitizer asks for the time there). */
#define _GNU_SOURCE
#include <stdlib.h>
#include <sys/syscall.h>
#include <sys/time.h>
#include <time.h>
#include <unistd.h>

static const long long SECOND = 1000000000;

int clock_gettime(clockid_t clock, struct timespec *now) {
    const char *shift = getenv("CLOCK_SHIFT");
    int done = (int)syscall(SYS_clock_gettime, clock, now);
    if (done || !shift || (clock != CLOCK_REALTIME && clock != CLOCK_REALTIME_COARSE)) return done;
    long long shifted = now->tv_sec * SECOND + now->tv_nsec + atoll(shift) * 1000000;
    now->tv_sec = shifted / SECOND;
    now->tv_nsec = shifted % SECOND;
    return 0;
}

int gettimeofday(struct timeval *restrict now, void *restrict zone) {
    (void)zone;
    struct timespec exact;
    if (clock_gettime(CLOCK_REALTIME, &exact)) return -1;
    now->tv_sec = exact.tv_sec;
    now->tv_usec = exact.tv_nsec / 1000;
    return 0;
}

time_t time(time_t *now) {
    struct timespec exact;
    if (clock_gettime(CLOCK_REALTIME, &exact)) return -1;
    if (now) *now = exact.tv_sec;
    return exact.tv_sec;
}
