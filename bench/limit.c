/* The yardsticks of bench/durable, each in seconds on standard output.
   limit sync FILE COUNT: so many times one write of 512 bytes and one fdatasync after another, over the sectors of a file in turn.
   limit batches FILE COUNT: so many records of 32 bytes, 64 of them by each write and fdatasync, one after another in a file.
   limit read FILE SIZE: the bytes of a file, read in pieces of this size. */
#define _GNU_SOURCE
#include <fcntl.h>
#include <stdio.h>
#include <stdlib.h>
#include <string.h>
#include <sys/stat.h>
#include <unistd.h>

#include "measuring.h"

static int batches(int file, long length, long count)
{
    enum { RECORD = 32, TOGETHER = 64 };
    char bytes[RECORD * TOGETHER];
    long each = sizeof bytes, places = length / each;
    for (long at = 0; at * TOGETHER < count; at++) {
        memset(bytes, (int)at, each);
        if (pwrite(file, bytes, each, at % places * each) != each || fdatasync(file) != 0)
            return 1;
    }
    return 0;
}

static int reads(int file, long length, long size)
{
    char *bytes = malloc(size);
    for (long at = 0; bytes && at + size <= length; at += size)
        if (pread(file, bytes, size, at) != size)
            return 1;
    free(bytes);
    return bytes == NULL;
}

int main(int argc, char **argv)
{
    struct stat found;
    int file = argc == 4 ? open(argv[2], O_RDWR) : -1;
    if (file < 0 || fstat(file, &found) != 0)
        return 2;
    int64_t start = now();
    long number = atol(argv[3]);
    int status = strcmp(argv[1], "sync") == 0 ? syncs(file, found.st_size / SECTOR, 0, number)
        : strcmp(argv[1], "batches") == 0 ? batches(file, found.st_size, number)
                                          : reads(file, found.st_size, number);
    printf("%.6f\n", (now() - start) / 1e9);
    return status;
}
