// Samples per second of `serial` beside the same reader in plain C, in one run on the same samples.
#include <stdbool.h>
#include <stdint.h>
#include <stdio.h>
#include <stdlib.h>
#include <string.h>

#include "common.h"

uint64_t timed_serial(uint64_t bit, uint64_t line, const uint16_t *samples, size_t samples_len, uint64_t *memory, size_t memory_len,
                      uint64_t *room, size_t room_len);

enum { PIECE = 65535, ROOM = 2 * PIECE, LINE = 5 };

typedef struct {
    uint32_t bit, line, wait;
    bool busy, level;
    uint8_t next, bits;
} Reader;

// Two numbers for each word: 0 or, broken, 1, and the byte.
static __attribute__((noinline)) uint64_t plain_serial(Reader *reader, const uint16_t *samples, size_t n, uint64_t *room, size_t room_len) {
    Reader r = *reader;
    size_t at = 0;
    for (size_t i = 0; i < n; i++) {
        bool level = samples[i] >> r.line & 1;
        if (!r.busy) {
            if (r.level && !level) {
                r.busy = true;
                r.wait = r.bit / 2 - 1;
                r.next = 0;
                r.bits = 0;
            }
        } else if (r.wait > 0) {
            r.wait--;
        } else if (r.next == 0) {
            r.busy = !level;
            r.wait = level ? 0 : r.bit - 1;
            r.next = level ? 0 : 1;
        } else if (r.next <= 8) {
            r.bits |= (uint8_t)(level << (r.next - 1));
            r.wait = r.bit - 1;
            r.next++;
        } else {
            if (room_len - at < 2) return UINT64_MAX;
            room[at++] = !level;
            room[at++] = r.bits;
            r.busy = false;
            r.next = 0;
            r.bits = 0;
        }
        r.level = level;
    }
    *reader = r;
    return at / 2;
}

// A level on the line, with garbage on the others, up to the end of the piece.
static size_t hold(uint16_t *samples, size_t from, size_t count, bool level) {
    for (; count > 0 && from < PIECE; count--) {
        uint16_t garbage = (uint16_t)next_random();
        samples[from++] = (uint16_t)(level ? garbage | 1 << LINE : garbage & ~(1 << LINE));
    }
    return from;
}

// Bytes of fair lengths: each level begins after the look at the one before, and at the latest with the look at it.
static void make(uint16_t *samples, uint32_t bit) {
    for (size_t i = 0; i < PIECE;) {
        uint32_t byte = next_random() % 256, begin = 0;
        for (uint32_t n = 0; n < 10; n++) {
            bool level = n == 9 || (n > 0 && byte >> (n - 1) & 1);
            uint32_t end = bit / 2 + n * bit + 1 + next_random() % bit;
            i = hold(samples, i, end - begin, level);
            begin = end;
        }
        i = hold(samples, i, next_random() % (4 * bit), true);
    }
}

// Not static, so that no compiler takes it for a constant in `plain_serial`.
size_t piece = PIECE;

static uint16_t samples[PIECE];
static uint64_t room[ROOM], plain[ROOM];

// Whether both read the same, call after call.
static bool agree(uint32_t bit, size_t room_len) {
    uint64_t memory[5] = {0, 1, 0, 0, 0};
    Reader r = {.bit = bit, .line = LINE, .level = true};
    for (int call = 0; call < 10; call++) {
        uint64_t words = timed_serial(bit, LINE, samples, piece, memory, 5, room, room_len);
        if (words != plain_serial(&r, samples, piece, plain, room_len)) return false;
        if (words > PIECE || memcmp(room, plain, 16 * words) != 0) return false;
        uint64_t left[5] = {r.busy, r.level, r.wait, r.next, r.bits};
        if (memcmp(memory, left, sizeof left) != 0) return false;
    }
    return true;
}

enum { TRIES = 7, CALLS = 500 };

static double rate_since(double start) {
    return (double)CALLS * (double)piece / (seconds() - start);
}

static double best_ours(uint32_t bit, size_t room_len) {
    double best = 0;
    for (int turn = 0; turn < TRIES; turn++) {
        uint64_t memory[5] = {0, 1, 0, 0, 0};
        double start = seconds();
        for (int call = 0; call < CALLS; call++) {
            timed_serial(bit, LINE, samples, piece, memory, 5, room, room_len);
            __asm__ volatile("" ::: "memory");
        }
        double rate = rate_since(start);
        if (rate > best) best = rate;
    }
    return best;
}

static double best_plain(uint32_t bit, size_t room_len) {
    double best = 0;
    for (int turn = 0; turn < TRIES; turn++) {
        Reader r = {.bit = bit, .line = LINE, .level = true};
        double start = seconds();
        for (int call = 0; call < CALLS; call++) {
            plain_serial(&r, samples, piece, plain, room_len);
            __asm__ volatile("" ::: "memory");
        }
        double rate = rate_since(start);
        if (rate > best) best = rate;
    }
    return best;
}

int main(void) {
    static const uint32_t bits[] = {4, 16, 100};
    // Two numbers for each sample, of which no count is needed; and two for each word that there can be.
    printf("%5s %8s %16s %16s %8s\n", "bit", "room", "serial, M/s", "plain C, M/s", "ratio");
    for (size_t i = 0; i < sizeof bits / sizeof *bits; i++) {
        make(samples, bits[i]);
        size_t rooms[] = {ROOM, 2 * (PIECE / (9 * bits[i]) + 1)};
        for (size_t k = 0; k < 2; k++) {
            if (!agree(bits[i], rooms[k])) {
                fprintf(stderr, "the two differ\n");
                return EXIT_FAILURE;
            }
            double ours = best_ours(bits[i], rooms[k]), theirs = best_plain(bits[i], rooms[k]);
            printf("%5u %8zu %16.0f %16.0f %8.2f\n", bits[i], rooms[k], ours / 1e6, theirs / 1e6, ours / theirs);
        }
    }
    return 0;
}
