/* Calls both functions of include/murm.h from C, and from C++ if compiled as such. Says what differs and returns 1, or returns 0. */
#include <stdio.h>
#include <string.h>

#include "murm.h"

#define COUNT(array) (sizeof(array) / sizeof((array)[0]))
#define CHECK(condition) check((condition), #condition, __LINE__)

/* What lent places hold before a call. */
#define NUMBER 9393
#define WORD UINT32_C(305419896)

static int checks, failed;

static void check(int holds, const char *condition, int line) {
    checks++;
    if (!holds) {
        failed++;
        printf("line %d: not %s\n", line, condition);
    }
}

static uint64_t refused(uint32_t number, uint32_t position) {
    return ((uint64_t)number << 32) + position;
}

/* ---- a list becomes a matrix */

static int16_t numbers[8193];

/* What a list returns, with the first places of `numbers` lent. */
static uint64_t list(uint32_t width, const uint32_t *codes, size_t count, size_t places) {
    size_t i;
    for (i = 0; i < COUNT(numbers); i++) numbers[i] = NUMBER;
    return murm_library_circuit_matrix(width, codes, count, numbers, places);
}

/* Whether all places from one on are as they were. */
static int numbers_stay(size_t from) {
    size_t i;
    for (i = from; i < COUNT(numbers); i++)
        if (numbers[i] != NUMBER) return 0;
    return 1;
}

static void lists(void) {
    static const uint32_t h[] = {0}, cx[] = {32784}, bad[] = {0, 999999, 999999}, high[] = {256};
    static const int16_t of_h[] = {1, 0, 0, 0, 1, 0, 0, 0, 1, 0, 0, 0, -1, 0, 0, 0};
    uint32_t growing[128], width;
    size_t i;

    CHECK(list(1, h, 1, 16) == 1);
    CHECK(memcmp(numbers, of_h, sizeof of_h) == 0);
    CHECK(numbers_stay(16));

    /* Cx exchanges rows 2 and 3. */
    CHECK(list(2, cx, 1, 64) == 0);
    CHECK(numbers[0] == 1 && numbers[20] == 1 && numbers[44] == 1 && numbers[56] == 1);
    CHECK(numbers[40] == 0 && numbers[60] == 0);
    CHECK(numbers_stay(64));

    /* The empty list is the identity, at every width. */
    for (width = 0; width <= 5; width++) {
        size_t rows = (size_t)1 << width, places = 4 * rows * rows;
        CHECK(list(width, h, 0, places) == 0);
        for (i = 0; i < places; i++)
            if (numbers[i] != (i % (4 * (rows + 1)) == 0)) break;
        CHECK(i == places);
        CHECK(numbers_stay(places));
        CHECK(list(width, h, 0, places - 1) == refused(MURM_LENGTH_NOT_EXACT, 0));
        CHECK(numbers_stay(0));
        CHECK(list(width, h, 0, places + 1) == refused(MURM_LENGTH_NOT_EXACT, 0));
        CHECK(numbers_stay(0));
        /* As many as the matrix has bytes. */
        CHECK(list(width, h, 0, 2 * places) == refused(MURM_LENGTH_NOT_EXACT, 0));
        CHECK(numbers_stay(0));
    }

    /* Each refusal, the first of the order 6, 9, 7, 8. H and T in turns do not fit from the gate at 116 on. */
    for (i = 0; i < COUNT(growing); i++) growing[i] = i % 2 ? 20480 : 0;
    CHECK(list(6, bad, 3, 16) == refused(MURM_WIDTH_TOO_LARGE, 0));
    CHECK(numbers_stay(0));
    CHECK(list(UINT32_MAX, h, 1, 0) == refused(MURM_WIDTH_TOO_LARGE, 0));
    CHECK(list(1, bad, 3, 15) == refused(MURM_LENGTH_NOT_EXACT, 0));
    CHECK(list(1, bad, 3, 16) == refused(MURM_NOT_VALID, 1));
    CHECK(numbers_stay(0));
    CHECK(list(1, high, 1, 16) == refused(MURM_NOT_VALID, 0));
    CHECK(list(0, h, 1, 4) == refused(MURM_NOT_VALID, 0));
    CHECK(list(1, growing, 128, 16) == refused(MURM_DOES_NOT_FIT, 116));
    CHECK(numbers_stay(0));
    CHECK(MURM_REFUSAL(list(1, growing, 116, 16)) == 0);
    growing[117] = MURM_MARK;
    CHECK(list(1, growing, 128, 16) == refused(MURM_NOT_VALID, 117));
    CHECK(numbers_stay(0));
    CHECK(MURM_REFUSAL(refused(7, 117)) == 7 && MURM_POSITION(refused(7, 117)) == 117);
}

/* ---- a matrix is answered */

/* The table of S and Sdg at width 1: no gate, S, Sdg, S S. */
static const uint64_t table_fingerprints[4] = {
    UINT64_C(0x29cc3c6d2113fdc4), UINT64_C(0x45bb475b3b2a7d1d), UINT64_C(0x091e144b25807b85), UINT64_C(0xbeb5662ea166a017)};
static const uint32_t table_parents[4] = {MURM_MARK, 0, 0, 1};
static const uint32_t table_codes[4] = {MURM_MARK, 12288, 16384, 12288};

/* A call, to be altered, and what it leaves. */
struct call {
    uint32_t q, g, e, b;
    size_t counts[5];
    uint64_t fingerprints[5];
    uint32_t parents[5], codes[5];
    size_t fingerprints_len, parents_len, codes_len;
    uint32_t width;
    uint16_t exponent;
    int16_t matrix[33];
    size_t matrix_len;
    uint32_t out[9];
    size_t out_len;
};

/* Z is asked of the table, in arrays of exactly q * e places, with a lent list of exactly g. */
static struct call fresh(void) {
    struct call c;
    size_t i;
    memset(&c, 0, sizeof c);
    c.q = 1;
    c.g = 8;
    c.e = 4;
    c.b = 24;
    c.counts[0] = 4;
    memcpy(c.fingerprints, table_fingerprints, sizeof table_fingerprints);
    memcpy(c.parents, table_parents, sizeof table_parents);
    memcpy(c.codes, table_codes, sizeof table_codes);
    c.fingerprints_len = c.parents_len = c.codes_len = 4;
    c.width = 1;
    c.matrix[0] = 1;
    c.matrix[12] = -1;
    c.matrix_len = 16;
    for (i = 0; i < COUNT(c.out); i++) c.out[i] = WORD;
    c.out_len = 8;
    return c;
}

static uint64_t ask(struct call *c) {
    return murm_synthesize(c->q, c->g, c->e, c->b, c->counts[0], c->counts[1], c->counts[2], c->counts[3], c->counts[4],
                           c->fingerprints, c->fingerprints_len, c->parents, c->parents_len, c->codes, c->codes_len,
                           c->width, c->exponent, c->matrix, c->matrix_len, c->out, c->out_len);
}

/* Whether all places of the lent list from one on are as they were. */
static int list_stays(const struct call *c, size_t from) {
    size_t i;
    for (i = from; i < COUNT(c->out); i++)
        if (c->out[i] != WORD) return 0;
    return 1;
}

/* One change of a fresh call, what it returns, and that the lent list stays. */
#define AFTER(change, returned)                                                \
    do {                                                                       \
        struct call c = fresh();                                               \
        change;                                                                \
        check(ask(&c) == (returned), #change " returns " #returned, __LINE__); \
        check(list_stays(&c, 0), #change " leaves the list", __LINE__);        \
    } while (0)

static void answers(void) {
    struct call c = fresh();
    CHECK(ask(&c) == 2);
    CHECK(c.out[0] == 12288 && c.out[1] == 12288);
    CHECK(list_stays(&c, 2));

    /* Longer arrays and a longer list. */
    c = fresh();
    c.fingerprints_len = c.parents_len = c.codes_len = 5;
    c.out_len = 9;
    CHECK(ask(&c) == 2);
    CHECK(list_stays(&c, 2));

    /* Two lower nodes with the fingerprint of Z are passed, and Z is answered. A bad one is met. */
    c = fresh();
    c.fingerprints[1] = c.fingerprints[2] = c.fingerprints[3];
    CHECK(ask(&c) == 2);
    CHECK(c.out[0] == 12288 && c.out[1] == 12288);
    CHECK(list_stays(&c, 2));
    AFTER((c.fingerprints[2] = c.fingerprints[3], c.codes[2] = 4096), refused(MURM_BAD_TABLE, 0));

    /* No gates for the identity; none for T, for a width that the table does not have, for a count without Z, for Z without its fingerprint. */
    AFTER(c.matrix[12] = 1, 0);
    AFTER((c.matrix[12] = 0, c.matrix[13] = 1), MURM_NONE);
    AFTER((c.width = 0, c.matrix_len = 4), MURM_NONE);
    AFTER(c.counts[0] = 3, MURM_NONE);
    AFTER(c.fingerprints[3] = c.fingerprints[1], MURM_NONE);

    /* Each refusal. */
    AFTER(c.q = 0, refused(MURM_BAD_TABLE, 0));
    AFTER(c.g = 65, refused(MURM_BAD_TABLE, 0));
    AFTER(c.e = 0, refused(MURM_BAD_TABLE, 0));
    AFTER(c.b = 0, refused(MURM_BAD_TABLE, 0));
    AFTER(c.counts[0] = 0, refused(MURM_BAD_TABLE, 0));
    AFTER(c.counts[0] = 5, refused(MURM_BAD_TABLE, 0));
    AFTER((c.q = 2, c.fingerprints_len = 0), refused(MURM_BAD_TABLE, 0));
    AFTER((c.q = 2, c.counts[1] = 1), refused(MURM_ARRAY_TOO_SHORT, 0));
    AFTER(c.fingerprints_len = 3, refused(MURM_ARRAY_TOO_SHORT, 0));
    AFTER(c.parents_len = 3, refused(MURM_ARRAY_TOO_SHORT, 0));
    AFTER((c.codes_len = 3, c.width = 6), refused(MURM_ARRAY_TOO_SHORT, 0));
    AFTER((c.width = 6, c.matrix_len = 15), refused(MURM_WIDTH_TOO_LARGE, 0));
    AFTER((c.matrix_len = 15, c.matrix[0] = -32768), refused(MURM_LENGTH_NOT_EXACT, 0));
    AFTER(c.matrix_len = 17, refused(MURM_LENGTH_NOT_EXACT, 0));
    AFTER(c.matrix_len = 32, refused(MURM_LENGTH_NOT_EXACT, 0));
    AFTER((c.matrix[0] = -32768, c.matrix[12] = 0, c.exponent = 1), refused(MURM_OUT_OF_RANGE, 0));
    AFTER((c.matrix[0] = 2, c.matrix[12] = -2, c.exponent = 1, c.out_len = 7), refused(MURM_NOT_LOWEST, 0));
    AFTER((c.out_len = 7, c.codes[3] = MURM_MARK), refused(MURM_LIST_TOO_SHORT, 0));
    AFTER((c.out_len = 7, c.counts[0] = 3), refused(MURM_LIST_TOO_SHORT, 0));
    AFTER(c.codes[3] = MURM_MARK, refused(MURM_BAD_TABLE, 0));
    AFTER(c.parents[3] = 3, refused(MURM_BAD_TABLE, 0));
    AFTER(c.parents[0] = 0, refused(MURM_BAD_TABLE, 0));
    AFTER(c.g = 1, refused(MURM_BAD_TABLE, 0));

    /* Counts above q are not looked at. */
    c = fresh();
    c.counts[1] = c.counts[4] = SIZE_MAX;
    CHECK(ask(&c) == 2);
}

/* Each count is that of its width: where it is 0, tables with that width are refused, and those of fewer widths are not. */
static void counts(void) {
    uint32_t width;
    for (width = 1; width <= 5; width++) {
        struct call c = fresh();
        size_t i;
        c.e = 1;
        for (i = 0; i < 5; i++) {
            c.counts[i] = i + 1 != width;
            c.fingerprints[i] = table_fingerprints[0];
            c.parents[i] = c.codes[i] = MURM_MARK;
        }
        c.fingerprints_len = c.parents_len = c.codes_len = 5;
        c.matrix[12] = 1;
        for (c.q = 1; c.q <= 5; c.q++) CHECK(ask(&c) == (c.q < width ? 0 : refused(MURM_BAD_TABLE, 0)));
    }
}

int main(void) {
    lists();
    answers();
    counts();
    printf("%d checks, %d failed\n", checks, failed);
    return failed != 0;
}
