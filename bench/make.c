// Writes a capture of pseudo-random runs: make LINES.
#include <stdint.h>
#include <stdio.h>
#include <stdlib.h>

int main(int argc, char **argv) {
    uint32_t state = 1;
    for (long line = argc > 1 ? atol(argv[1]) : 0; line > 0; line--) {
        state = state * 1664525 + 1013904223;
        unsigned sample = state >> 16;
        state = state * 1664525 + 1013904223;
        printf("%u %u\n", sample, 1 + (state >> 16) % 65535);
    }
    return 0;
}
