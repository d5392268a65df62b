/* The same as crates/bench_registers, in plain C: records of a location update in sectors of 512 bytes in memory, written
   and read back. Prints, for records of 1 and of 64 commands, how many there were and the nanoseconds of each way. */
#include <stdint.h>
#include <stdio.h>
#include <stdlib.h>
#include <string.h>
#include <time.h>

enum { SECTORS = 39, ROUNDS = 2000, MOST = 64, HEAD = 14 };

struct command {
    uint16_t station;
    uint32_t sequence, moment;
    uint64_t itsi;
    uint16_t area, bits;
    unsigned char *pdu;
};

static unsigned char disk[SECTORS][512], text[36 * 512];

static unsigned char *put(unsigned char *at, uint64_t number, int width)
{
    for (int k = 0; k < width; k++)
        at[k] = number >> 8 * (width - 1 - k);
    return at + width;
}

static uint64_t get(const unsigned char **at, int width)
{
    uint64_t number = 0;
    for (int k = 0; k < width; k++)
        number = number << 8 | *(*at)++;
    return number;
}

static size_t encode(uint64_t before, struct command *const *commands, int count)
{
    unsigned char *at = text + HEAD;
    for (int k = 0; k < count; k++) {
        const struct command *c = commands[k];
        at = put(put(put(put(at, c->station, 2), c->sequence, 4), c->moment, 4), 3, 1);
        at = put(put(put(at, c->itsi, 6), c->area, 2), c->bits, 2);
        memcpy(at, c->pdu, (c->bits + 7) / 8);
        at += (c->bits + 7) / 8;
    }
    put(put(put(text, count, 2), before + 1, 8), at - text - HEAD, 4);
    return at - text;
}

/* The next gate, or 0 where there is no room. */
static int append(int gate, uint64_t before, struct command *const *commands, int count)
{
    size_t length = encode(before, commands, count);
    int size = (length + 511) / 512;
    if (gate + size + 2 > SECTORS)
        return 0;
    for (int k = 0; k <= size; k++) {
        size_t from = 512 * k, left = length > from ? length - from : 0;
        memset(disk[gate + 1 + k], 0, 512);
        memcpy(disk[gate + 1 + k], text + from, left < 512 ? left : 512);
    }
    memset(disk[gate], 0, 512);
    disk[gate][0] = 1;
    return gate + size + 1;
}

static int decode(const unsigned char **at, const unsigned char *end, struct command *c)
{
    if (end - *at < 21)
        return 0;
    c->station = get(at, 2), c->sequence = get(at, 4), c->moment = get(at, 4);
    if (get(at, 1) != 3 || c->sequence == 0)
        return 0;
    c->itsi = get(at, 6), c->area = get(at, 2), c->bits = get(at, 2);
    int bytes = (c->bits + 7) / 8;
    if (c->area >= 1 << 14 || c->bits > 2048 || end - *at < bytes || !(c->pdu = malloc(bytes)))
        return 0;
    memcpy(c->pdu, *at, bytes);
    *at += bytes;
    return 1;
}

struct record { int sector, count; struct command *commands; };

/* How many records are read. */
static int replay(struct record *records)
{
    int gate = 0, found = 0;
    uint64_t before = 0;
    while (gate + 1 < SECTORS && disk[gate][0] == 1) {
        const unsigned char *at = disk[gate + 1];
        unsigned count = get(&at, 2);
        uint64_t first = get(&at, 8);
        unsigned length = get(&at, 4), size = (length + HEAD + 511) / 512;
        if (first != before + 1 || count < 1 || count > MOST || length > 281 * count || gate + 1 + size >= SECTORS)
            return -1;
        memcpy(text, disk[gate + 1], 512 * size);
        const unsigned char *end = text + HEAD + length;
        for (const unsigned char *zero = end; zero < text + 512 * size; zero++)
            if (*zero)
                return -1;
        struct record *r = &records[found++];
        r->sector = gate + 1, r->count = count, r->commands = malloc(count * sizeof *r->commands);
        at = text + HEAD;
        for (unsigned k = 0; k < count; k++)
            if (!r->commands || !decode(&at, end, &r->commands[k]))
                return -1;
        if (at != end)
            return -1;
        gate += size + 1;
        before += count;
    }
    return found;
}

static void drop(struct record *records, int count)
{
    for (int k = 0; k < count; k++) {
        for (int j = 0; j < records[k].count; j++)
            free(records[k].commands[j].pdu);
        free(records[k].commands);
    }
}

static long long now(void)
{
    struct timespec t;
    clock_gettime(CLOCK_MONOTONIC, &t);
    return t.tv_sec * 1000000000LL + t.tv_nsec;
}

static void timed(int count)
{
    static unsigned char pdu[] = {0x26, 0};
    static struct command update = {1, 2, 10, 0x3a800e0007d1, 7, 10, pdu};
    struct command *commands[MOST];
    struct record records[SECTORS];
    long long all = 0, appended = 0, read = 0;
    for (int k = 0; k < count; k++)
        commands[k] = &update;
    for (int round = 0; round < ROUNDS; round++) {
        int written = 0;
        memset(disk[0], 0, 512);
        long long start = now();
        for (int gate = 0, next; (next = append(gate, (uint64_t)written * count, commands, count)); gate = next)
            written++;
        appended += now() - start;
        start = now();
        int found = replay(records);
        drop(records, found < 0 ? 0 : found);
        read += now() - start;
        if (found != written)
            exit(1);
        all += written;
    }
    printf("%d %lld %lld %lld\n", count, all, appended, read);
}

int main(void)
{
    timed(1);
    timed(64);
    return 0;
}
