/* The yardstick of bench/durable where LevelDB is installed: leveldb FOLDER COUNT puts so many records of 32 bytes into a new store, 64 of
   them by each write, which is synced. Prints the seconds. */
#include <leveldb/c.h>
#include <stdio.h>
#include <stdlib.h>

#include "measuring.h"

enum { TOGETHER = 64, KEY = 8, VALUE = 24 };

static void give_up(const char *fault)
{
    fprintf(stderr, "leveldb: %s\n", fault);
    exit(1);
}

static void put_batch(leveldb_t *store, leveldb_writeoptions_t *synced, long first, long after)
{
    char value[VALUE] = "", *fault = NULL;
    leveldb_writebatch_t *batch = leveldb_writebatch_create();
    for (int64_t at = first; at < after; at++)
        leveldb_writebatch_put(batch, (const char *)&at, KEY, value, VALUE);
    leveldb_write(store, synced, batch, &fault);
    if (fault)
        give_up(fault);
    leveldb_writebatch_destroy(batch);
}

int main(int argc, char **argv)
{
    if (argc != 3)
        return 2;
    char *fault = NULL;
    long count = atol(argv[2]);
    leveldb_options_t *made = leveldb_options_create();
    leveldb_writeoptions_t *synced = leveldb_writeoptions_create();
    leveldb_options_set_create_if_missing(made, 1);
    leveldb_writeoptions_set_sync(synced, 1);
    int64_t start = now();
    leveldb_t *store = leveldb_open(made, argv[1], &fault);
    if (fault)
        give_up(fault);
    for (long first = 0; first < count; first += TOGETHER)
        put_batch(store, synced, first, first + TOGETHER < count ? first + TOGETHER : count);
    printf("%.6f\n", (now() - start) / 1e9);
    leveldb_close(store);
    return 0;
}
