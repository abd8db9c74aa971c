/* How much stack calls take: each is made on a thread whose stack was filled with one byte, and the bytes from the deepest that is another
   afterwards are counted, less those of a thread that calls nothing. tools/stack compiles it and links the archives of murm_c and bench. */
#define _GNU_SOURCE
#include <pthread.h>
#include <stdint.h>
#include <stdio.h>
#include <stdlib.h>
#include <string.h>

#include "../include/murm.h"

uint64_t bench_fingerprint(const int16_t *m, size_t places, size_t n, uint16_t k);
uint64_t bench_build(uint32_t mode, uint32_t by, const uint32_t *limits, size_t limit_places, uint64_t *fingerprints, size_t fingerprint_places,
                     uint32_t *parents, size_t parent_places, uint32_t *codes, size_t code_places, uint32_t *index, size_t index_places,
                     uint64_t *numbers, size_t number_places);

enum { STACK = 1 << 20, MOST = 20000, PART = 65536, GATES = 64, PLACES = 4096 };
static _Alignas(65536) unsigned char stack[STACK];
static uint64_t fingerprints[5 * MOST], numbers[15];
static uint32_t parents[5 * MOST], codes[5 * MOST], lookup[5 * PART];
static int16_t matrix[PLACES];
static uint32_t width, mode, by, limits[4];

static void check(int right, const char *what) {
    if (!right) {
        fprintf(stderr, "stack: %s\n", what);
        exit(1);
    }
}

static void *nothing(void *unused) { return unused; }

/* A list with each of the kinds, as far as the width has their operands. */
static void *list(void *unused) {
    static const uint32_t all[] = {0,     4096,  8192,  12288, 16384, 20480,  24576, 61440, 65536,
                                   32784, 36880, 77840, 81936, 102416, 40978, 45074, 106514};
    size_t count = width < 2 ? 9 : width < 3 ? 14 : 17;
    check(murm_library_circuit_matrix(width, all, count, matrix, (size_t)4 << 2 * width) < 65535, "a list is refused");
    return unused;
}

/* The identity, asked of the table that `chain` made. */
static void *answer(void *unused) {
    uint32_t out[GATES];
    uint64_t told = murm_synthesize(5, GATES, MOST, 32, 65, 65, 65, 65, 65, fingerprints, 5 * MOST, parents, 5 * MOST, codes, 5 * MOST, width, 0,
                                    matrix, (size_t)4 << 2 * width, out, GATES);
    check(told == 0 || told == GATES, "no list is answered");
    return unused;
}

static void *build(void *unused) {
    size_t places = (size_t)limits[0] * limits[2], part = 1;
    while (part < 2 * (size_t)limits[2])
        part *= 2;
    uint64_t refused =
        bench_build(mode, by, limits, 4, fingerprints, places, parents, places, codes, places, lookup, limits[0] * part, numbers, 15);
    check(refused == 0, "a build is refused");
    return unused;
}

static size_t touched(void *call(void *)) {
    pthread_t thread;
    pthread_attr_t attributes;
    size_t kept = 0;
    memset(stack, 0x5a, STACK);
    check(!pthread_attr_init(&attributes) && !pthread_attr_setstack(&attributes, stack, STACK), "no stack");
    check(!pthread_create(&thread, &attributes, call, NULL) && !pthread_join(thread, NULL), "no thread");
    while (kept < STACK && stack[kept] == 0x5a)
        kept++;
    return STACK - kept;
}

/* The bytes that a call takes. */
static size_t taken(void *call(void *)) { return touched(call) - touched(nothing); }

static size_t larger(size_t x, size_t y) { return x > y ? x : y; }

/* A table of one chain at the width: node j is T after node j - 1, and node `gates` alone has the fingerprint of the identity. */
static void chain(size_t gates) {
    size_t side = (size_t)1 << width, at = (width - 1) * MOST;
    memset(matrix, 0, sizeof matrix);
    for (size_t row = 0; row < side; row++)
        matrix[4 * (row * side + row)] = 1;
    uint64_t asked = bench_fingerprint(matrix, 4 * side * side, width, 0);
    for (size_t j = 0; j <= GATES; j++) {
        fingerprints[at + j] = asked + (j != gates);
        parents[at + j] = j ? j - 1 : UINT32_MAX;
        codes[at + j] = j ? 20480 : UINT32_MAX;
    }
}

int main(void) {
    size_t lists = 0, none = 0, answers = 0, builds = 0;
    for (width = 1; width <= 5; width++) {
        lists = larger(lists, taken(list));
        chain(0);
        none = larger(none, taken(answer));
        chain(GATES);
        answers = larger(answers, taken(answer));
    }
    size_t gate = (answers - none) / GATES;
    printf("a list: %zu bytes\n", lists);
    printf("an answer by a chain of 64 gates: %zu, of none: %zu, so %zu for each gate\n", answers, none, gate);
    static const uint32_t built[][4] = {{1, 64, MOST, 33},  {1, 64, MOST, 3967},  {2, 64, MOST, 33},
                                        {3, 64, 4000, 383}, {4, 64, 1000, 3967}, {5, 64, 400, 3967}};
    for (size_t i = 0; i < sizeof built / sizeof *built; i++)
        for (mode = 0; mode < 2; mode++)
            for (by = 0; by < 2; by++) {
                memcpy(limits, built[i], sizeof limits);
                size_t bytes = taken(build), depth = 0;
                for (size_t w = 0; w < limits[0]; w++)
                    depth = larger(depth, numbers[3 * w + 1]);
                builds = larger(builds, bytes + (GATES - depth) * gate);
                printf("a build of %u %u %u %u, mode %u, look-up %u: ", limits[0], limits[1], limits[2], limits[3], mode, by);
                printf("%zu, completed depth %zu\n", bytes, depth);
            }
    printf("so a build with a chain of 64 gates: at most %zu\n", builds);
    return 0;
}
