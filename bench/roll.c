// Samples per second of `roll` beside the same loops in plain C, in one run on the same samples.
#include <stdint.h>
#include <stdio.h>
#include <stdlib.h>
#include <string.h>

#include "common.h"

uint64_t timed_roll(const uint16_t *samples, size_t samples_len, uint16_t *room, size_t room_len);

enum { PIECE = 65535, ROOM = 2 * PIECE };

static __attribute__((noinline)) uint64_t plain_roll(const uint16_t *samples, size_t n, uint16_t *room, size_t room_len) {
    if (n > PIECE) return UINT64_MAX;
    size_t runs = n > 0;
    for (size_t i = 1; i < n; i++)
        if (samples[i] != samples[i - 1]) runs++;
    if (room_len < 2 * runs) return UINT64_MAX;
    for (size_t from = 0, at = 0; from < n; at += 2) {
        size_t to = from + 1;
        while (to < n && samples[to] == samples[from]) to++;
        room[at] = samples[from];
        room[at + 1] = (uint16_t)(to - from);
        from = to;
    }
    return runs;
}

// Runs of 1 to 2 * mean - 1 samples.
static void make(uint16_t *samples, unsigned mean) {
    for (size_t i = 0; i < PIECE;) {
        uint16_t sample = (uint16_t)next_random();
        size_t count = 1 + next_random() % (2 * mean - 1);
        while (count-- > 0 && i < PIECE) samples[i++] = sample;
    }
}

typedef uint64_t roll_fn(const uint16_t *, size_t, uint16_t *, size_t);

static double best_rate(roll_fn *roll, const uint16_t *samples, uint16_t *room) {
    double best = 0;
    for (int turn = 0; turn < 7; turn++) {
        enum { CALLS = 1000 };
        double start = seconds();
        for (int call = 0; call < CALLS; call++) {
            roll(samples, PIECE, room, ROOM);
            __asm__ volatile("" ::: "memory");
        }
        double rate = (double)CALLS * PIECE / (seconds() - start);
        if (rate > best) best = rate;
    }
    return best;
}

int main(void) {
    static uint16_t samples[PIECE], room[ROOM], plain[ROOM];
    static const unsigned means[] = {1, 2, 8, 64, 1000, 40000};
    printf("%10s %16s %16s %8s\n", "mean run", "roll, M/s", "plain C, M/s", "ratio");
    for (size_t i = 0; i < sizeof means / sizeof *means; i++) {
        make(samples, means[i]);
        uint64_t runs = timed_roll(samples, PIECE, room, ROOM);
        if (runs != plain_roll(samples, PIECE, plain, ROOM) || memcmp(room, plain, 4 * runs) != 0) {
            fprintf(stderr, "the two differ\n");
            return EXIT_FAILURE;
        }
        double ours = best_rate(timed_roll, samples, room), theirs = best_rate(plain_roll, samples, plain);
        printf("%10u %16.0f %16.0f %8.2f\n", means[i], ours / 1e6, theirs / 1e6, ours / theirs);
    }
    return 0;
}
