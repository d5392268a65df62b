/* Base stations for bench/serve: client FILE ROUNDS COUNT LINES IN OUT [LINES IN OUT]...
   Three words name a station's lines and its named pipes. A station writes one line of LINES into IN after another, each once OUT has the
   answer to the one before: one line with " ok ". The first station is alone. The others, each in a thread, ask together.
   A round has three parts: COUNT lines of the station that is alone; COUNT times two writes of 512 bytes on FILE, each with its fdatasync;
   COUNT lines of each of the others. Prints for each round the nanoseconds of each part: the median of a line to its answer (or of two
   writes), and the whole. */
#include <fcntl.h>
#include <pthread.h>
#include <stdio.h>
#include <stdlib.h>
#include <sys/stat.h>

#include "measuring.h"

enum { MOST_STATIONS = 65, LONGEST_ANSWER = 4096 };

struct station {
    char **names;
    FILE *lines;
    int in, out;
    /* Of the lines of a round. */
    int64_t *times;
};

static struct station stations[MOST_STATIONS];
static long rounds, count;
static pthread_barrier_t begin, end;

static void give_up(const char *name, const char *what)
{
    fprintf(stderr, "client: %s: %s\n", name, what);
    exit(1);
}

static void open_station(struct station *station)
{
    station->lines = fopen(station->names[0], "r");
    station->in = open(station->names[1], O_WRONLY);
    station->out = open(station->names[2], O_RDONLY);
    if (station->lines == NULL || station->in < 0 || station->out < 0)
        give_up(station->names[0], "it or a pipe can't be opened");
}

static void ask(const struct station *station, const char *line, size_t length)
{
    char answer[LONGEST_ANSWER + 1] = "";
    size_t have = 0;
    if (write(station->in, line, length) != (ssize_t)length)
        give_up(station->names[1], "can't be written");
    while (have == 0 || answer[have - 1] != '\n') {
        ssize_t got = read(station->out, answer + have, LONGEST_ANSWER - have);
        if (got <= 0)
            give_up(station->names[2], "ended");
        have += got;
    }
    if (strstr(answer, " ok ") == NULL)
        give_up(station->names[2], answer);
}

static void ask_lines(const struct station *station)
{
    char line[LONGEST_ANSWER];
    for (long k = 0; k < count; k++) {
        if (fgets(line, sizeof line, station->lines) == NULL)
            give_up(station->names[0], "has too few lines");
        int64_t start = now();
        ask(station, line, strlen(line));
        station->times[k] = now() - start;
    }
}

static void *ask_together(void *argument)
{
    struct station *station = argument;
    open_station(station);
    for (long round = 0; round < rounds; round++) {
        pthread_barrier_wait(&begin);
        ask_lines(station);
        pthread_barrier_wait(&end);
    }
    close(station->in);
    return NULL;
}

static void write_pairs(int file, long sectors, int64_t *times)
{
    for (long k = 0; k < count; k++) {
        int64_t start = now();
        if (syncs(file, sectors, 2 * k, 2) != 0)
            give_up("FILE", "can't be written");
        times[k] = now() - start;
    }
}

static int compare(const void *one, const void *other)
{
    int64_t a = *(const int64_t *)one, b = *(const int64_t *)other;
    return (a > b) - (a < b);
}

static void print_part(int64_t *times, long length, int64_t start)
{
    int64_t whole = now() - start;
    qsort(times, length, sizeof *times, compare);
    printf("%ld %ld ", (long)times[length / 2], (long)whole);
}

static void run_round(int file, long sectors, int64_t *times, long together)
{
    int64_t start = now();
    ask_lines(&stations[0]);
    print_part(stations[0].times, count, start);
    start = now();
    write_pairs(file, sectors, times);
    print_part(times, count, start);
    start = now();
    pthread_barrier_wait(&begin);
    pthread_barrier_wait(&end);
    print_part(stations[1].times, together * count, start);
    puts("");
}

int main(int argc, char **argv)
{
    pthread_t threads[MOST_STATIONS];
    struct stat found;
    long together = (argc - 4) / 3 - 1;
    int file = argc > 9 && argc % 3 == 1 && together < MOST_STATIONS ? open(argv[1], O_RDWR) : -1;
    if (file < 0 || fstat(file, &found) != 0)
        return 2;
    rounds = atol(argv[2]);
    count = atol(argv[3]);
    int64_t *times = calloc((together + 2) * count, sizeof *times);
    if (times == NULL || pthread_barrier_init(&begin, NULL, together + 1) != 0 || pthread_barrier_init(&end, NULL, together + 1) != 0)
        return 2;
    for (long k = 0; k <= together; k++)
        stations[k] = (struct station){.names = argv + 4 + 3 * k, .times = times + k * count};
    for (long k = 1; k <= together; k++)
        if (pthread_create(&threads[k], NULL, ask_together, &stations[k]) != 0)
            return 2;
    open_station(&stations[0]);
    for (long round = 0; round < rounds; round++)
        run_round(file, found.st_size / SECTOR, times + (together + 1) * count, together);
    for (long k = 1; k <= together; k++)
        pthread_join(threads[k], NULL);
    return 0;
}
