/* How much faster than alone a loop that shares nothing is in threads that are begun anew: what the machine has to
   give to work that is cut so. Threads that are soon done may get less of it than those that last.

   threads MICROSECONDS PARTS THREADS ROUNDS [PIECES]: how long the loop takes alone, how many parts of it follow each
   other, how many threads each part has, and how often it is timed. A part is cut into as many pieces, one for each
   thread where their number is not given, and each thread takes the first that none has taken, one after another. It
   writes the ratio of the medians. */
#define _POSIX_C_SOURCE 200809L
#include <pthread.h>
#include <stdatomic.h>
#include <stdint.h>
#include <stdio.h>
#include <stdlib.h>
#include <time.h>

static volatile uint64_t last;

static double now(void) {
    struct timespec t;
    clock_gettime(CLOCK_MONOTONIC, &t);
    return t.tv_sec * 1e6 + t.tv_nsec / 1e3;
}

/* Four generators that do not wait for each other, so that one thread keeps a whole core busy: where two processors
   are threads of one core, they share it. */
static void turn(long times) {
    uint64_t x[4] = { 88172645463325252u, 362436069362436069u, 521288629521288629u, 886756538867565388u };
    for (long at = 0; at < times; at++)
        for (int lane = 0; lane < 4; lane++) {
            x[lane] ^= x[lane] << 13;
            x[lane] ^= x[lane] >> 7;
            x[lane] ^= x[lane] << 17;
        }
    last = x[0] ^ x[1] ^ x[2] ^ x[3];
}

/* What the threads of a part share. */
struct part {
    atomic_long next;
    long pieces, times;
};

static void *take_turns(void *shared) {
    struct part *part = shared;
    while (atomic_fetch_add(&part->next, 1) < part->pieces) turn(part->times);
    return NULL;
}

static void turn_in_threads(long times, long count, long pieces) {
    pthread_t threads[count];
    struct part part = { 0, pieces, times / pieces };
    for (long at = 1; at < count; at++)
        if (pthread_create(&threads[at], NULL, take_turns, &part)) exit(1);
    take_turns(&part);
    for (long at = 1; at < count; at++) pthread_join(threads[at], NULL);
}

static int by_size(const void *a, const void *b) {
    double d = *(const double *)a - *(const double *)b;
    return d < 0 ? -1 : d > 0;
}

int main(int count, char **words) {
    if (count != 5 && count != 6) return 2;
    long whole = atol(words[1]), parts = atol(words[2]), threads = atol(words[3]), rounds = atol(words[4]);
    long pieces = count == 6 ? atol(words[5]) : threads;
    if (whole < 1 || parts < 1 || threads < 1 || threads > 1024 || rounds < 1 || rounds > 10000 || pieces < 1) return 2;
    double start = now();
    turn(20000000);
    long times = (long)(whole * 20000000.0 / (now() - start));
    double alone[rounds], cut[rounds];
    for (long round = 0; round < rounds; round++) {
        start = now();
        turn(times);
        alone[round] = now() - start;
        start = now();
        for (long part = 0; part < parts; part++) turn_in_threads(times / parts, threads, pieces);
        cut[round] = now() - start;
    }
    qsort(alone, rounds, sizeof *alone, by_size);
    qsort(cut, rounds, sizeof *cut, by_size);
    printf("%.2f\n", alone[rounds / 2] / cut[rounds / 2]);
    return 0;
}
