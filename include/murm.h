/* The library's entries for lists and for answers, as C functions of the archive libmurm_c.a (x86-64). docs/SPECIFICATION.md says what they do for
   every input; numbers of sections here are its numbers (14.1).

   What a caller owes, in both functions. An array is given as a pointer and its length, in elements, not in bytes.
   - A pointer is not null, also where its length is 0, and is aligned as its type demands.
   - An array has at least as many elements as its length says. All of them are initialized; those of `out` need not be.
   - The array `out` overlaps no other array. The others are only read, and may overlap each other.
   - No other thread writes to an array during the call, or reads `out`.
   Nothing else is asked: every width, limit, count, code and coefficient is either answered or refused. No pointer is kept after the call, no memory
   is taken, and calls in several threads do not disturb each other. A call takes up to 20 kB of stack, as measured.

   What is returned, in both functions: one number r (14.2).
   - MURM_REFUSAL(r) is not 0: the call is refused by that number. MURM_POSITION(r) is the position, 0 except for 7 and 8; a position above
     4294967295 is given as 4294967295. `out` is as it was.
   - MURM_REFUSAL(r) is 0: r is the answer, as said at each function. */
#ifndef MURM_H
#define MURM_H

#include <stddef.h>
#include <stdint.h>

#if SIZE_MAX != UINT64_MAX
#error "murm.h: libmurm_c.a is for machines whose size_t has 64 bits"
#endif

#ifdef __cplusplus
extern "C" {
#endif

/* The refusal in a returned number, 0 for none, and its position. */
#define MURM_REFUSAL(r) ((uint32_t)((uint64_t)(r) >> 32))
#define MURM_POSITION(r) ((uint32_t)((uint64_t)(r) & UINT32_MAX))

/* What murm_synthesize returns where the table has no list for the matrix. */
#define MURM_NONE UINT64_C(4294967295)

/* What stands as the parent and the code of node 0 of each width of a table (2.10). */
#define MURM_MARK UINT32_C(4294967295)

/* The refusals of the two functions (9.1). */
enum murm_refusal {
    MURM_ARRAY_TOO_SHORT = 5,   /* one of the three arrays of a table has fewer than q * e places */
    MURM_WIDTH_TOO_LARGE = 6,   /* the width is above 5 */
    MURM_NOT_VALID = 7,         /* a code is not valid at the width; the position is that of the first such code */
    MURM_DOES_NOT_FIT = 8,      /* a coefficient would be outside -32767 to 32767; the position is that of the first gate where this is so */
    MURM_LENGTH_NOT_EXACT = 9,  /* a matrix does not have exactly 4 * 4^width coefficients */
    MURM_OUT_OF_RANGE = 10,     /* a coefficient of the matrix that is asked is -32768 */
    MURM_NOT_LOWEST = 11,       /* the matrix that is asked is not in lowest denominator: its exponent is above 0, and all entries are divisible by sqrt(2) */
    MURM_LIST_TOO_SHORT = 12,   /* `out` has fewer than g places */
    MURM_BAD_TABLE = 13         /* the limits or counts are not those of a table, or parents or codes that an answer meets are bad (9.3) */
};

/* A list of gates becomes its matrix (chapter 4).
     width   number of qubits, 0 to 5
     codes   the gates, the oldest first: kind * 4096 + a * 256 + b * 16 + c (2.1, 2.3)
     out     exactly 4 * 4^width coefficients, four for each entry, the entries row after row (1.7)
   Returns the exponent k, below 65535: the matrix is the entries in `out` over sqrt(2)^k. Refused by 6, 9, 7, 8, tried in this order. */
uint64_t murm_library_circuit_matrix(uint32_t width, const uint32_t *codes, size_t codes_len, int16_t *out, size_t out_len);

/* A matrix is asked of a table, whatever the table holds (chapter 7).
     q, g, e, b          limits of the table: widths 1 to q, lists of up to g gates, up to e nodes for each width, basis b (6.1)
     count1 .. count5    number of nodes of widths 1 to 5; those above q are not looked at (14.3)
     fingerprints,       at least q * e places each; node j of width w is at place (w - 1) * e + j (6.2, 6.11)
     parents, codes
     width, exponent     number of qubits and exponent of the matrix
     matrix              its exactly 4 * 4^width coefficients, as murm_library_circuit_matrix leaves them
     out                 at least g places for the list
   Returns the number of gates of a list, 0 to g, whose matrix is a power of omega times the one asked. The list's codes are then the first elements
   of `out`, the oldest gate first; the other elements are as they were. Or returns MURM_NONE, and all of `out` is as it was. Refused by 13 (limits
   and counts), 5, 6, 9, 10, 11, 12, 13 (a node that is met), tried in this order. */
uint64_t murm_synthesize(uint32_t q, uint32_t g, uint32_t e, uint32_t b,
                         size_t count1, size_t count2, size_t count3, size_t count4, size_t count5,
                         const uint64_t *fingerprints, size_t fingerprints_len,
                         const uint32_t *parents, size_t parents_len,
                         const uint32_t *codes, size_t codes_len,
                         uint32_t width, uint16_t exponent, const int16_t *matrix, size_t matrix_len,
                         uint32_t *out, size_t out_len);

#ifdef __cplusplus
}
#endif

#endif
