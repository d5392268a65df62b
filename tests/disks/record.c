/* Preloaded into a program by recorder.py. It writes down to the file RECORD what is done with the file DISK, once the call has
   succeeded: `w`, offset and length and the bytes of each write, `p`, offset and 0 of each read, `t`, the length that the file is
   given, and 0, and for each sync `s` (fdatasync) or `a` (fsync); `d` is an fsync of the folder FOLDER. Where MOST is set, a write of
   DISK takes so many bytes at most. The FAILS-th of these calls, from 1, fails and does nothing, which is `f`; where ALWAYS is set, so
   does each later one. Its error is EIO, or the one whose number is ERROR. A write that fails writes the first PART of its bytes all the
   same, where PART is set: `f` has these, as `w` has them. LINES names files, with a colon between two. It lets a read of such a file
   have TOGETHER lines at most, and writes down, before the read, `r`, how many whole lines of the file were read so far, 2, and two
   bytes: the file's place in LINES, from 1, and TOGETHER; where these lines are BREAKS or more, and BREAKS is not 0, the read fails.
   ANSWERS names files in the same way: of each write to one of them it writes down, before the write, `o`, the file's place in ANSWERS,
   from 1, and length and the bytes. Numbers have 8 bytes, in this machine's order. Threads may do all this at once, each file read by one
   of them. */
#define _GNU_SOURCE
#include <errno.h>
#include <fcntl.h>
#include <stdint.h>
#include <stdlib.h>
#include <sys/syscall.h>
#include <sys/uio.h>
#include <unistd.h>

#include "named_files.h"

static int is_file(int fd, const char *variable)
{
    const char *name = getenv(variable);
    return name && is_named(fd, name);
}

/* One write, so that the notes of threads do not mix. */
static void note(char kind, uint64_t first, uint64_t second, const void *bytes, size_t length)
{
    int before = errno, record = open(getenv("RECORD"), O_WRONLY | O_APPEND | O_CREAT, 0600);
    struct iovec parts[] = {{&kind, 1}, {&first, 8}, {&second, 8}, {(void *)bytes, length}};
    if (record < 0 || writev(record, parts, 4) != (ssize_t)(17 + length))
        abort();
    close(record);
    errno = before;
}

/* So many bytes, or those that a variable allows, if these are fewer; `without` where it is not set. */
static size_t at_most(const char *variable, size_t length, size_t without)
{
    size_t most = getenv(variable) ? strtoul(getenv(variable), NULL, 10) : without;
    return most < length ? most : length;
}

/* Whether a call of this file fails, which would write these bytes. */
static int fails_writing(int fd, const void *bytes, size_t length, off_t offset)
{
    static long left;
    static int is_known, has_failed;
    if (!is_file(fd, "DISK") && !is_file(fd, "FOLDER"))
        return 0;
    if (!is_known)
        left = atol(getenv("FAILS"));
    is_known = 1;
    if (has_failed ? !getenv("ALWAYS") : left == 0 || --left > 0)
        return 0;
    has_failed = 1;
    size_t part = at_most("PART", length, 0);
    if (part > 0 && syscall(SYS_pwrite64, fd, bytes, part, offset) != (ssize_t)part)
        abort();
    note('f', offset, part, bytes, part);
    errno = getenv("ERROR") ? atoi(getenv("ERROR")) : EIO;
    return 1;
}

static int fails(int fd)
{
    return fails_writing(fd, "", 0, 0);
}

ssize_t pwrite(int fd, const void *bytes, size_t length, off_t offset)
{
    if (fails_writing(fd, bytes, length, offset))
        return -1;
    int is_disk = is_file(fd, "DISK");
    ssize_t written = syscall(SYS_pwrite64, fd, bytes, is_disk ? at_most("MOST", length, length) : length, offset);
    if (written > 0 && is_disk)
        note('w', offset, written, bytes, written);
    return written;
}

ssize_t pwrite64(int fd, const void *bytes, size_t length, off_t offset)
{
    return pwrite(fd, bytes, length, offset);
}

ssize_t pread(int fd, void *bytes, size_t length, off_t offset)
{
    if (fails(fd))
        return -1;
    ssize_t got = syscall(SYS_pread64, fd, bytes, length, offset);
    if (got > 0 && is_file(fd, "DISK"))
        note('p', offset, 0, "", 0);
    return got;
}

ssize_t pread64(int fd, void *bytes, size_t length, off_t offset)
{
    return pread(fd, bytes, length, offset);
}

int ftruncate(int fd, off_t length)
{
    if (fails(fd))
        return -1;
    int result = syscall(SYS_ftruncate, fd, length);
    if (result == 0 && is_file(fd, "DISK"))
        note('t', length, 0, "", 0);
    return result;
}

int ftruncate64(int fd, off_t length)
{
    return ftruncate(fd, length);
}

static int synced(int fd, long number, char kind)
{
    if (fails(fd))
        return -1;
    int result = syscall(number, fd);
    if (result == 0 && is_file(fd, "DISK"))
        note(kind, 0, 0, "", 0);
    if (result == 0 && is_file(fd, "FOLDER"))
        note('d', 0, 0, "", 0);
    return result;
}

int fdatasync(int fd)
{
    return synced(fd, SYS_fdatasync, 's');
}

int fsync(int fd)
{
    return synced(fd, SYS_fsync, 'a');
}

static ssize_t read_lines(int fd, char place, char *bytes, size_t length)
{
    static uint64_t all_lines[MOST_FILES];
    uint64_t *lines = &all_lines[place - 1];
    char head[] = {place, atoi(getenv("TOGETHER"))};
    size_t have = 0;
    note('r', *lines, 2, head, 2);
    if (*lines >= (uint64_t)atol(getenv("BREAKS")) && atol(getenv("BREAKS")) > 0) {
        errno = EIO;
        return -1;
    }
    for (int left = head[1]; have < length && left > 0; have++) {
        ssize_t got = syscall(SYS_read, fd, bytes + have, 1);
        if (got <= 0)
            return have ? (ssize_t)have : got;
        left -= bytes[have] == '\n';
        *lines += bytes[have] == '\n';
    }
    return have;
}

ssize_t read(int fd, void *bytes, size_t length)
{
    int place = length ? place_of(fd, "LINES") : 0;
    return place ? read_lines(fd, place, bytes, length) : syscall(SYS_read, fd, bytes, length);
}

ssize_t write(int fd, const void *bytes, size_t length)
{
    int place = place_of(fd, "ANSWERS");
    if (place)
        note('o', place, length, bytes, length);
    return syscall(SYS_write, fd, bytes, length);
}
