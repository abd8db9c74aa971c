// Builds of two versions of the port, in turns in one process. oracle/versus compiles it and links the two archives.
#define _POSIX_C_SOURCE 200809L
#include <stdint.h>
#include <stdio.h>
#include <stdlib.h>
#include <string.h>
#include <time.h>

typedef uint64_t builder(uint32_t mode, uint32_t by, const uint32_t *limits, size_t limit_places, uint64_t *fingerprints, size_t fingerprint_places,
                         uint32_t *parents, size_t parent_places, uint32_t *codes, size_t code_places, uint32_t *index, size_t index_places,
                         uint64_t *numbers, size_t number_places);
builder before_bench_build, after_bench_build;

enum { MOST = 100000, PART = 262144, WIDTHS = 5, NUMBERS = 15 };

// What one version fills.
struct tables {
    uint64_t fingerprints[WIDTHS * MOST];
    uint32_t parents[WIDTHS * MOST], codes[WIDTHS * MOST], index[WIDTHS * PART];
    uint64_t numbers[NUMBERS];
};
static struct tables before, after;

// The processor's seconds of this thread.
static double seconds(void) {
    struct timespec t;
    clock_gettime(CLOCK_THREAD_CPUTIME_ID, &t);
    return t.tv_sec + t.tv_nsec * 1e-9;
}

static double build(builder *by, struct tables *t, uint32_t mode, const uint32_t limits[4]) {
    size_t places = (size_t)limits[0] * limits[2], part = 1;
    while (part < 2 * (size_t)limits[2])
        part *= 2;
    double start = seconds();
    uint64_t refused = by(mode, 1, limits, 4, t->fingerprints, places, t->parents, places, t->codes, places, t->index, limits[0] * part,
                          t->numbers, NUMBERS);
    double time = seconds() - start;
    if (refused)
        exit(1);
    return time;
}

// The least times of builds by both versions, in turns.
static void race(uint32_t mode, const uint32_t limits[4], double best[2]) {
    double spent = 0;
    best[0] = best[1] = 1e9;
    for (int turn = 0; turn < 5 || (spent < 1 && turn < 200); turn++) {
        double one = build(before_bench_build, &before, mode, limits), two = build(after_bench_build, &after, mode, limits);
        best[0] = one < best[0] ? one : best[0];
        best[1] = two < best[1] ? two : best[1];
        spent += one + two;
    }
    if (memcmp(&before, &after, sizeof before)) {
        printf("%u %u %u %u differs\n", limits[0], limits[1], limits[2], limits[3]);
        exit(1);
    }
}

static void tell(const double best[2], uint64_t count) {
    printf(" %.0f %.0f %.2f", best[0] * 1e9 / count, best[1] * 1e9 / count, best[0] / best[1]);
}

// One line: nanoseconds for each entry, before and after, and how many times as many entries in the same time; then the same of width Q alone: the
// build less that with one width less.
static void line(const char *name, uint32_t mode, uint32_t q, uint32_t g, uint32_t e, uint32_t b) {
    const uint32_t limits[4] = {q, g, e, b}, less[4] = {q - 1, g, e, b};
    double all[2], lower[2] = {0, 0};
    race(mode, limits, all);
    uint64_t count = 0, top = after.numbers[3 * (q - 1)];
    for (uint32_t width = 0; width < q; width++)
        count += after.numbers[3 * width];
    if (q > 1)
        race(mode, less, lower);
    printf("%s %u %u %u %u %s", name, q, g, e, b, mode ? "keeping" : "by-print");
    tell(all, count);
    const double alone[2] = {all[0] - lower[0], all[1] - lower[1]};
    tell(alone, top);
    printf("\n");
    fflush(stdout);
}

int main(void) {
    const uint32_t gates[WIDTHS] = {8, 4, 3, 2, 2}, bases[2] = {383, 3967};
    printf("work Q G E B mode before after ratio width-before width-after width-ratio\n");
    for (uint32_t mode = 0; mode < 2; mode++)
        for (int b = 0; b < 2; b++)
            for (uint32_t q = 1; q <= WIDTHS; q++) {
                line("whole", mode, q, gates[q - 1], 12000, bases[b]);
                line("full", mode, q, 8, 12000, bases[b]);
                line("full", mode, q, 8, MOST, bases[b]);
            }
    return 0;
}
