/* timing PLAN CANDIDATE: judges two files again and again, and prints the verdict's number (0 if accepted) and the
 * microseconds of processor time that one judging takes: the middle one of some batches. */
#define _POSIX_C_SOURCE 199309L
#include "plan_judge.h"

#include <stdio.h>
#include <stdlib.h>
#include <time.h>

/* One byte more than a text may have. */
#define MOST 60001

/* So many batches are taken, each of at least so many microseconds. */
#define BATCHES 21
#define BATCH 5000.0

static uint8_t text[MOST];
static uint8_t cand[MOST];
static size_t text_length;
static size_t cand_length;
static uint8_t room[PLAN_ROOM_BYTES];
static uint32_t cycle[PLAN_CYCLE_PLACES];

/* The bytes of a file, as many as fit; gives their number. */
static size_t bytes_of(const char *path, uint8_t *bytes) {
    FILE *file = fopen(path, "rb");
    if (file == NULL) {
        fprintf(stderr, "timing: can't read %s\n", path);
        exit(2);
    }
    size_t n = fread(bytes, 1, MOST, file);
    fclose(file);
    return n;
}

/* One judging. */
static uint64_t judge(void) {
    return plan_judge(text, text_length, cand, cand_length, room, PLAN_ROOM_BYTES, cycle, PLAN_CYCLE_PLACES);
}

/* The processor time used so far, in microseconds. */
static double used(void) {
    struct timespec time;
    clock_gettime(CLOCK_PROCESS_CPUTIME_ID, &time);
    return time.tv_sec * 1e6 + time.tv_nsec / 1e3;
}

/* The time of one of so many judgings. */
static double batch(long runs) {
    double start = used();
    for (long i = 0; i < runs; i++)
        judge();
    return (used() - start) / runs;
}

/* The order of two times. */
static int order(const void *a, const void *b) {
    double x = *(const double *)a, y = *(const double *)b;
    return (x > y) - (x < y);
}

int main(int argc, char **argv) {
    double times[BATCHES];
    if (argc != 3) {
        fprintf(stderr, "usage: timing PLAN CANDIDATE\n");
        return 2;
    }
    text_length = bytes_of(argv[1], text);
    cand_length = bytes_of(argv[2], cand);
    batch(1);
    long runs = 1 + (long)(BATCH / batch(3));
    for (int i = 0; i < BATCHES; i++)
        times[i] = batch(runs);
    qsort(times, BATCHES, sizeof times[0], order);
    printf("%u %.2f\n", (unsigned)PLAN_ABOVE(judge()), times[BATCHES / 2]);
    return 0;
}
