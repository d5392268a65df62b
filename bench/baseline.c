/* The plain baseline of the benchmark: it reads standard input in pieces of 64 KiB, splits them at
   line ends, and writes one short line for each line with one write. It judges nothing. With a file
   after its name it writes that file's answers instead, each of which comes after its length in four
   bytes: so much does the writing alone take. */
#define _GNU_SOURCE
#include <fcntl.h>
#include <stdio.h>
#include <string.h>
#include <sys/mman.h>
#include <sys/stat.h>
#include <unistd.h>

static const char *ready, *end_of_ready;

/* Has all answers of a file in memory. */
static int make_ready(const char *name)
{
    struct stat about;
    int file = open(name, O_RDONLY);
    if (file < 0 || fstat(file, &about) < 0)
        return 0;
    ready = mmap(NULL, about.st_size, PROT_READ, MAP_PRIVATE | MAP_POPULATE, file, 0);
    end_of_ready = ready + about.st_size;
    return ready != MAP_FAILED;
}

static int next_answer(void)
{
    unsigned length;
    if (end_of_ready - ready < (long)sizeof length)
        return 0;
    memcpy(&length, ready, sizeof length);
    const char *text = ready + sizeof length;
    ready += sizeof length + length;
    return write(1, text, length) == (ssize_t)length;
}

static int answer(unsigned long line)
{
    char text[32];
    if (ready)
        return next_answer();
    int length = snprintf(text, sizeof text, "%lu ok\n", line);
    return write(1, text, length) == length;
}

int main(int count, char **words)
{
    static char piece[65536];
    unsigned long lines = 0;
    ssize_t got;
    if (count > 1 && !make_ready(words[1]))
        return 4;
    while ((got = read(0, piece, sizeof piece)) > 0) {
        const char *at = piece, *end = piece + got;
        while ((at = memchr(at, '\n', end - at)) != NULL) {
            at++;
            if (!answer(++lines))
                return 4;
        }
    }
    return got < 0 ? 4 : 0;
}
