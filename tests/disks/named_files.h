/* Files that a variable of the environment names, with a colon between two, for what is preloaded into a program. */
#include <stdlib.h>
#include <string.h>
#include <sys/stat.h>

enum { MOST_FILES = 64 };

static inline int is_named(int fd, const char *name)
{
    struct stat given, named;
    return fstat(fd, &given) == 0 && stat(name, &named) == 0 && given.st_ino == named.st_ino && given.st_dev == named.st_dev;
}

/* The place of a file in such a variable, from 1; 0 where it is not there. */
static inline int place_of(int fd, const char *variable)
{
    const char *at = getenv(variable);
    for (int place = 1; at && *at && place <= MOST_FILES; place++) {
        char name[4096] = "";
        size_t length = strcspn(at, ":");
        if (length < sizeof name)
            memcpy(name, at, length);
        if (is_named(fd, name))
            return place;
        at += length + (at[length] == ':');
    }
    return 0;
}
