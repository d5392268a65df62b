/* What the C programs of benchmarks over real files share. */
#include <stdint.h>
#include <string.h>
#include <time.h>
#include <unistd.h>

enum { SECTOR = 512 };

/* Nanoseconds since some moment. */
static inline int64_t now(void)
{
    struct timespec time;
    clock_gettime(CLOCK_MONOTONIC, &time);
    return time.tv_sec * 1000000000LL + time.tv_nsec;
}

/* So many times one write of 512 bytes and one fdatasync after another, over the sectors of a file in turn. Whether one failed. */
static inline int syncs(int file, long sectors, long first, long count)
{
    char bytes[SECTOR];
    for (long at = first; at < first + count; at++) {
        memset(bytes, (int)at, SECTOR);
        if (pwrite(file, bytes, SECTOR, at % sectors * SECTOR) != SECTOR || fdatasync(file) != 0)
            return 1;
    }
    return 0;
}
