/* Preloaded into the program by bench/durable. LINES names files, with a colon between two. It lets a read of such a file have one line
   at most. A line's time is from when the read gives it until the program asks for the next one, which it does once the line is
   answered. At its end the program writes into the file TIMES, for each file, how many lines were answered, the longest time and the
   sum of all, in nanoseconds. Each file is read by one thread. */
#define _GNU_SOURCE
#include <stdint.h>
#include <stdio.h>
#include <stdlib.h>
#include <string.h>
#include <sys/syscall.h>
#include <unistd.h>

#include "../tests/disks/named_files.h"
#include "measuring.h"

enum { MOST_NUMBERS = 1024, PIECE = 65536 };

struct lines {
    char bytes[PIECE];
    size_t at, end;
    int64_t given, answered, longest, sum;
};

static struct lines files[MOST_FILES];
/* By the number of an open file its place in LINES, from 1; 0 where it is not there, or that is not known yet. */
static signed char places[MOST_NUMBERS];

static void answered(struct lines *file, int64_t time)
{
    file->answered++;
    file->sum += time;
    if (time > file->longest)
        file->longest = time;
}

static ssize_t read_line(int fd, struct lines *file, char *bytes, size_t length)
{
    if (file->given)
        answered(file, now() - file->given);
    file->given = 0;
    if (file->at == file->end) {
        ssize_t got = syscall(SYS_read, fd, file->bytes, PIECE);
        if (got <= 0)
            return got;
        file->at = 0;
        file->end = got;
    }
    const char *start = file->bytes + file->at, *stop = memchr(start, '\n', file->end - file->at);
    size_t have = stop ? (size_t)(stop + 1 - start) : file->end - file->at;
    have = have < length ? have : length;
    memcpy(bytes, start, have);
    file->at += have;
    if (bytes[have - 1] == '\n')
        file->given = now();
    return have;
}

ssize_t read(int fd, void *bytes, size_t length)
{
    if (length == 0 || fd < 0 || fd >= MOST_NUMBERS)
        return syscall(SYS_read, fd, bytes, length);
    if (places[fd] == 0)
        places[fd] = place_of(fd, "LINES");
    return places[fd] > 0 ? read_line(fd, &files[places[fd] - 1], bytes, length) : syscall(SYS_read, fd, bytes, length);
}

static void report(void)
{
    FILE *times = getenv("TIMES") ? fopen(getenv("TIMES"), "w") : NULL;
    for (int k = 0; times && k < MOST_FILES; k++)
        fprintf(times, "%ld %ld %ld\n", (long)files[k].answered, (long)files[k].longest, (long)files[k].sum);
    if (times)
        fclose(times);
}

/* A program with threads ends by this call, which runs no destructor. */
void _exit(int status)
{
    report();
    for (;;)
        syscall(SYS_exit_group, status);
}

__attribute__((destructor)) static void report_at_end(void)
{
    report();
}
