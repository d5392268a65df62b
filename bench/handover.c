/* What 64 sessions and one flusher in threads take at least, for bench/sessions: each session marks a place of its own and lets
   other threads run until the flusher, which goes over all places again and again, has marked it as answered. There is no queue,
   no channel and no command. Prints `handover COMMANDS NANOSECONDS` five times. */
#define _GNU_SOURCE
#include <pthread.h>
#include <sched.h>
#include <stdatomic.h>
#include <stdint.h>
#include <stdio.h>
#include <stdlib.h>

#include "measuring.h"

enum { SESSIONS = 64, COMMANDS = 500, ROUNDS = 5 };

enum { FREE, SUBMITTED };

/* A place has two cache lines to itself. */
struct place {
    _Alignas(128) _Atomic int state;
};

static struct place places[SESSIONS];

static void *submit_all(void *given)
{
    struct place *place = given;
    for (int k = 0; k < COMMANDS; k++) {
        atomic_store(&place->state, SUBMITTED);
        while (atomic_load(&place->state) == SUBMITTED)
            sched_yield();
    }
    return NULL;
}

/* Answers whoever submitted, and returns how many that were. */
static int answer_all(void)
{
    int answered = 0;
    for (int k = 0; k < SESSIONS; k++)
        if (atomic_load(&places[k].state) == SUBMITTED) {
            atomic_store(&places[k].state, FREE);
            answered++;
        }
    return answered;
}

static void flush_all(void)
{
    for (int left = SESSIONS * COMMANDS; left > 0;) {
        int answered = answer_all();
        left -= answered;
        if (!answered)
            sched_yield();
    }
}

static void start(pthread_t *thread, struct place *place)
{
    if (pthread_create(thread, NULL, submit_all, place)) {
        perror("pthread_create");
        exit(1);
    }
}

int main(void)
{
    for (int round = 0; round < ROUNDS; round++) {
        pthread_t sessions[SESSIONS];
        int64_t begun = now();
        for (int k = 0; k < SESSIONS; k++)
            start(&sessions[k], &places[k]);
        flush_all();
        for (int k = 0; k < SESSIONS; k++)
            pthread_join(sessions[k], NULL);
        printf("handover %d %lld\n", SESSIONS * COMMANDS, (long long)(now() - begun));
    }
    return 0;
}
