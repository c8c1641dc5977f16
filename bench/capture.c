// The program `capture` in plain C: reads runs, joins equal neighbours, writes runs.
#include <stdint.h>
#include <stdio.h>
#include <stdlib.h>
#include <string.h>
#include <unistd.h>

typedef struct {
    uint16_t sample, count;
} Run;

typedef struct {
    unsigned char *bytes;
    size_t len, cap;
} Text;

static void *grown(void *old, size_t size) {
    void *p = realloc(old, size);
    if (p == NULL) {
        fputs("out of memory\n", stderr);
        exit(EXIT_FAILURE);
    }
    return p;
}

static void refuse(int number, uint64_t place) {
    fprintf(stderr, "refused %d at %llu\n", number, (unsigned long long)place);
    exit(EXIT_FAILURE);
}

static Text read_all(void) {
    Text text = {0};
    for (;;) {
        if (text.cap - text.len < 65536) {
            text.cap = 2 * text.cap + 65536;
            text.bytes = grown(text.bytes, text.cap);
        }
        ssize_t n = read(0, text.bytes + text.len, text.cap - text.len);
        if (n <= 0) return text;
        text.len += (size_t)n;
    }
}

// The number from `at` on, up to 65,536, and where it ends; -1 where there is none.
static int32_t number_at(const Text *text, size_t *at) {
    size_t i = *at;
    int32_t number = 0;
    while (i < text->len && text->bytes[i] >= '0' && text->bytes[i] <= '9') {
        number = number * 10 + (text->bytes[i++] - '0');
        if (number > 65536) number = 65536;
    }
    if (i == *at) return -1;
    *at = i;
    return number;
}

static void put_number(Text *out, unsigned number) {
    unsigned char digits[5];
    int n = 0;
    do {
        digits[n++] = (unsigned char)('0' + number % 10);
        number /= 10;
    } while (number > 0);
    while (n > 0) out->bytes[out->len++] = digits[--n];
}

int main(void) {
    Text text = read_all();
    Run *runs = NULL;
    size_t len = 0, cap = 0;
    uint64_t line = 0, place = 0;
    for (size_t at = 0; at < text.len; line++) {
        int32_t sample = number_at(&text, &at);
        if (sample < 0 || at >= text.len || text.bytes[at++] != ' ') refuse(5, line);
        int32_t count = number_at(&text, &at);
        if (count <= 0 || count > 65535) refuse(5, line);
        if (at < text.len && text.bytes[at++] != '\n') refuse(5, line);
        if (sample > 65535) refuse(3, place);
        place += (uint64_t)count;
        if (len > 0 && runs[len - 1].sample == sample) {
            int32_t free_count = 65535 - runs[len - 1].count;
            int32_t joined = count < free_count ? count : free_count;
            runs[len - 1].count += (uint16_t)joined;
            count -= joined;
            if (count == 0) continue;
        }
        if (len == cap) {
            cap = 2 * cap + 1024;
            runs = grown(runs, cap * sizeof *runs);
        }
        runs[len++] = (Run){(uint16_t)sample, (uint16_t)count};
    }
    Text out = {0};
    for (size_t i = 0; i < len; i++) {
        if (out.cap - out.len < 12) {
            out.cap = 2 * out.cap + 65536;
            out.bytes = grown(out.bytes, out.cap);
        }
        put_number(&out, runs[i].sample);
        out.bytes[out.len++] = ' ';
        put_number(&out, runs[i].count);
        out.bytes[out.len++] = '\n';
    }
    for (size_t at = 0; at < out.len;) {
        ssize_t n = write(1, out.bytes + at, out.len - at);
        if (n <= 0) return EXIT_FAILURE;
        at += (size_t)n;
    }
    return 0;
}
