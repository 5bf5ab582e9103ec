/*
 * Glaukemis for C and C++: test formulas over dimensionless groups, in whole numbers. examples/pulsator.c shows the whole use on a page;
 * docs/RULES.md has the rules that the calls are proved against. `bash install.sh PREFIX` installs; then, to compile and link a program,
 *
 *     cc program.c $(pkg-config --cflags --libs glaukemis)
 *
 * and where PREFIX/lib is no folder that the loader searches, set LD_LIBRARY_PATH to it or link with -static.
 *
 * A PROBLEM has a row for each of m dimensions and a column for each of n quantities: entry j of row i is the power of dimension i in
 * quantity j. And it has a modulus for each row: 0 for none, or else the p that counts as nothing there. Below, s is the count of moduli
 * other than 0, N is n + s, r is the rank that the build tells, and d is N - r, the number of groups.
 *
 * BUFFERS. Each is a pointer and then its size, which is a count of numbers; only in the calls on bytes it is a length in bytes. A matrix
 * is lent and written row after row, the top row first, without gaps. Inputs are only read. An output may be longer than the least size
 * below. No pointer may be null, not even where the size is 0. No output may overlap another buffer of its call. A size must be that of
 * memory that may be read, and for an output also written.
 *
 * TAKEN. Number and place are 0. Each output begins with what its call tells, and behind that it is untouched.
 *
 * REFUSED. The number tells why, as enum glaukemis_number has it, and the place where, counted from 0. All other fields are 0, but for the
 * reading that GLAUKEMIS_BAD_READING carries. Nothing that was lent is changed.
 *
 * THREADS. The calls keep no state, take no memory but the stack, and always return. Several threads may call at once, so long as none
 * writes a buffer that another one reads or writes.
 *
 * STACK. 1 MB is enough for every call on every input. glaukemis_translate takes most: 115,824 bytes where no row takes more than one
 * repetition of (A), R7.8 of the rules, and 10,912 more for each further one in the deepest row. There are at most 66, as is proved, and
 * with them it would take 825,104. The deepest problem that is known has 50, and takes 650,512. glaukemis_weigh, which makes no build,
 * takes 57. (The bytes were measured, by docs/stack.sh, of the library for x86-64.)
 */
#ifndef GLAUKEMIS_H
#define GLAUKEMIS_H

#include <stddef.h>
#include <stdint.h>

#ifdef __cplusplus
extern "C" {
#endif

/* The version of this header and its library; docs/DECISIONS.md says what changes each part. */
#define GLAUKEMIS_VERSION "1.0.1"
#define GLAUKEMIS_VERSION_MAJOR 1
#define GLAUKEMIS_VERSION_MINOR 0
#define GLAUKEMIS_VERSION_PATCH 1

/* The limits. */
#define GLAUKEMIS_MAX_ROWS 8         /* m is 1 to 8 */
#define GLAUKEMIS_MAX_QUANTITIES 16  /* n is 1 to 16 */
#define GLAUKEMIS_MAX_COLUMNS 24     /* N is at most 24 */
#define GLAUKEMIS_MAX_ENTRY 1000     /* an entry is -1000 to 1000 */
#define GLAUKEMIS_MAX_MODULUS 1000   /* a modulus is 0 to 1000; 1 is a true one */
#define GLAUKEMIS_MAX_TERMS 64       /* a formula has 0 to 64 terms */
#define GLAUKEMIS_MAX_EXPONENT 10000 /* an exponent of a term is -10,000 to 10,000; a coefficient is any int32_t */
#define GLAUKEMIS_MAX_READINGS 16    /* there are n readings */
#define GLAUKEMIS_MAX_POWER 64       /* a group that is worked out from readings has exponents -64 to 64 */
#define GLAUKEMIS_M 2147483647       /* M: what a step of the build writes, and a translated exponent, is -M to M */

/* The least sizes of the outputs, in numbers, whatever the problem; and in bytes, for the calls on bytes. */
#define GLAUKEMIS_H_COUNT 192
#define GLAUKEMIS_V_COUNT 576
#define GLAUKEMIS_W_COUNT 576
#define GLAUKEMIS_WEIGHTS_COUNT 8
#define GLAUKEMIS_COEFFICIENTS_COUNT 64
#define GLAUKEMIS_EXPONENTS_COUNT 1024
#define GLAUKEMIS_H_BYTES (4 * GLAUKEMIS_H_COUNT)
#define GLAUKEMIS_V_BYTES (4 * GLAUKEMIS_V_COUNT)
#define GLAUKEMIS_W_BYTES (4 * GLAUKEMIS_W_COUNT)
#define GLAUKEMIS_COEFFICIENTS_BYTES (4 * GLAUKEMIS_COEFFICIENTS_COUNT)
#define GLAUKEMIS_EXPONENTS_BYTES (4 * GLAUKEMIS_EXPONENTS_COUNT)

/*
 * What the number of an answer says. The checks go in the order of this list, so 24 before 12, and the first to find a fault decides. Each
 * call tells which of them it makes.
 */
enum glaukemis_number {
    GLAUKEMIS_TAKEN = 0,               /* no fault */
    GLAUKEMIS_BAD_SIZES = 1,           /* m or n is beyond its limits. Place 0 */
    GLAUKEMIS_BAD_INPUT_LENGTH = 2,    /* an input is shorter or longer than its call tells, or has more than 64 terms. Place 0 */
    GLAUKEMIS_BAD_OUTPUT_LENGTH = 3,   /* an output is shorter than its least size. Place 0 */
    GLAUKEMIS_BAD_MODULUS = 4,         /* a modulus is beyond its limits. Place: the first such row */
    GLAUKEMIS_BAD_ENTRY = 5,           /* an entry is beyond its limits. Place: the first such entry as the matrix is lent */
    GLAUKEMIS_BAD_EXPONENT = 6,        /* an exponent is beyond its limits. Place: the first such exponent as they are lent */
    GLAUKEMIS_BUILD_OVERFLOW = 7,      /* the steps of the build come to a value beyond M, to either side. Place 0 */
    GLAUKEMIS_NOT_FREE = 8,            /* a term is not free of dimension: one of its weights is not 0. Place: the term */
    GLAUKEMIS_TRANSLATED_OVERFLOW = 9, /* an exponent of a term comes to a value beyond M, to either side. Place: the term */
    GLAUKEMIS_BAD_LINE = 10,           /* no call's: the program glaukemis read a bad line, or missed one. Place: the first such line */
    GLAUKEMIS_BAD_READING = 11,        /* a reading is not finite or not above zero; the answer carries it. Place: the first such reading */
    GLAUKEMIS_NO_GROUP = 24,           /* there is no such group. Place: the group's number as it was given */
    GLAUKEMIS_BAD_POWER = 12,          /* an exponent of the group is beyond 64, to either side. Place: the group's number */
    GLAUKEMIS_BAD_VALUE = 13           /* the value, or one on the way to it, is zero or not finite. Place: the group's number */
};

/* The answers. */
typedef struct {
    uint32_t number; /* of enum glaukemis_number */
    uint32_t place;
    uint32_t rank;   /* r */
    uint32_t moduli; /* s */
    uint64_t steps;  /* how many column steps the build took */
} glaukemis_build_answer;

typedef struct {
    uint32_t number; /* of enum glaukemis_number */
    uint32_t place;
} glaukemis_weigh_answer;

typedef struct {
    uint32_t number; /* of enum glaukemis_number */
    uint32_t place;
    uint32_t d; /* the number of groups */
} glaukemis_translate_answer;

typedef struct {
    uint32_t number; /* of enum glaukemis_number */
    uint32_t place;
    double value; /* the group's value; of GLAUKEMIS_BAD_READING the reading, bit for bit; of any other refusal 0.0 */
} glaukemis_gauge_answer;

/* ---------------------------------------------------------------------------------------------------------------- calls on numbers */

/*
 * glaukemis_build_numbers: finds the groups of a problem, with its Hermite form, the multiplier and the inverse.
 *
 * Of the matrix C, which has first a column for every modulus p other than 0, with -p in its row and 0 in the others, top row first, and
 * then the columns of the problem, these are the column Hermite form H, the normal multiplier V, for which C*V is H, and W, inverse to V.
 * Group g, from 0, has for quantity j, from 0, the exponent v[(s + j) * N + r + g].
 *
 * Lend
 *   matrix        m*n numbers
 *   moduli        m numbers
 *   h, v, w       at least GLAUKEMIS_H_COUNT, GLAUKEMIS_V_COUNT and GLAUKEMIS_W_COUNT numbers
 * Back come
 *   h             in its first m*N numbers H, with its zero columns
 *   v, w          in their first N*N numbers V and W
 *   the answer    with rank, moduli and steps
 * Refusals: 1, 2, 3, 4, 5 and 7.
 */
glaukemis_build_answer glaukemis_build_numbers(
    uint32_t m, uint32_t n,
    const int32_t *matrix, size_t matrix_count,
    const int32_t *moduli, size_t moduli_count,
    int32_t *h, size_t h_count,
    int32_t *v, size_t v_count,
    int32_t *w, size_t w_count);

/*
 * glaukemis_weigh: tells the dimension of one term, so that one sees why it is not free of dimension.
 *
 * The term's weight in a row is the sum of each entry times the exponent of its quantity. Where the row has a modulus p it is what C's %
 * makes of that sum and p: the remainder, with the sign of the sum. A term all of whose weights are 0 is free of dimension.
 *
 * Lend
 *   matrix        m*n numbers
 *   moduli        m numbers
 *   exponents     n numbers: the exponent of each quantity
 *   weights       at least GLAUKEMIS_WEIGHTS_COUNT numbers
 * Back come
 *   weights       in its first m numbers the weight in each row
 *   the answer
 * Refusals: 1, 2, 3, 4, 5 and 6. There is no build, and so no 7.
 */
glaukemis_weigh_answer glaukemis_weigh(
    uint32_t m, uint32_t n,
    const int32_t *matrix, size_t matrix_count,
    const int32_t *moduli, size_t moduli_count,
    const int32_t *exponents, size_t exponents_count,
    int32_t *weights, size_t weights_count);

/*
 * glaukemis_translate_numbers: writes a formula, each of whose terms is free of dimension, in the groups of the problem.
 *
 * Put for each group the exponents that the build tells of it, and the formula comes back, term for term.
 *
 * Lend, for t terms, 0 to GLAUKEMIS_MAX_TERMS
 *   matrix        m*n numbers
 *   moduli        m numbers
 *   coefficients  t numbers, which tell how many terms there are
 *   exponents     t*n numbers: the exponent of each quantity, term after term
 *   kept          at least GLAUKEMIS_COEFFICIENTS_COUNT numbers
 *   translated    at least GLAUKEMIS_EXPONENTS_COUNT numbers
 * Back come
 *   kept          in its first t numbers the coefficients as they are
 *   translated    in its first t*d numbers the exponent of each group, term after term
 *   the answer    with d
 * Refusals: 1 to 9. Of 8 and 9 the lowest term with either decides, and if it has both, 8.
 */
glaukemis_translate_answer glaukemis_translate_numbers(
    uint32_t m, uint32_t n,
    const int32_t *matrix, size_t matrix_count,
    const int32_t *moduli, size_t moduli_count,
    const int32_t *coefficients, size_t coefficients_count,
    const int32_t *exponents, size_t exponents_count,
    int32_t *kept, size_t kept_count,
    int32_t *translated, size_t translated_count);

/* ------------------------------------------------------------------------------------------------------------------ calls on bytes */

/*
 * The same over bytes, as they come by a wire or from a file. In a buffer each number takes four bytes, big-endian two's complement:
 * 00 00 00 05 is 5, ff ff ff fe is -2. Every size is four times what it is above (GLAUKEMIS_H_BYTES and so on), and one that is no
 * multiple of four is refused, an input's as 2 and an output's as 3. All else is as it is above.
 */

/* glaukemis_build: glaukemis_build_numbers over bytes. */
glaukemis_build_answer glaukemis_build(
    uint32_t m, uint32_t n,
    const uint8_t *matrix, size_t matrix_length,
    const uint8_t *moduli, size_t moduli_length,
    uint8_t *h, size_t h_length,
    uint8_t *v, size_t v_length,
    uint8_t *w, size_t w_length);

/* glaukemis_translate: glaukemis_translate_numbers over bytes. */
glaukemis_translate_answer glaukemis_translate(
    uint32_t m, uint32_t n,
    const uint8_t *matrix, size_t matrix_length,
    const uint8_t *moduli, size_t moduli_length,
    const uint8_t *coefficients, size_t coefficients_length,
    const uint8_t *exponents, size_t exponents_length,
    uint8_t *kept, size_t kept_length,
    uint8_t *translated, size_t translated_length);

/* -------------------------------------------------------------------------------------------------------------------------- gauges */

/*
 * glaukemis_gauge: works out the value of one group from a reading for each quantity.
 *
 * The value begins at 1.0. Then come the quantities, one after the other, with their exponents in the group: for an exponent e above 0
 * there are e products with the quantity's reading, for -e there are e quotients by it. The value is what these operations come to, bit for
 * bit, each rounded to the nearest double, on a tie to the even one. If all readings are powers of two, subnormal ones included, and no
 * value on the way leaves 2^-1022 to 2^1023, nothing is rounded and the value is exact.
 *
 * The caller leaves the machine's arithmetic as it is at the start of a program: no fesetround, no floating-point traps, and no subnormals
 * flushed to zero, as a program does that is linked with -ffast-math. The call may raise the floating-point flags.
 *
 * Lend
 *   matrix        m*n numbers
 *   moduli        m numbers
 *   readings      n numbers: the reading of each quantity, finite and above zero; subnormal readings are taken
 *   group         the group's number, 0 to d - 1
 * Back comes
 *   the answer    with the value
 * Refusals: 1, 2, 4, 5, 7, 11, 24, 12 and 13. There is no output, and so no 3.
 */
glaukemis_gauge_answer glaukemis_gauge(
    uint32_t m, uint32_t n,
    const int32_t *matrix, size_t matrix_count,
    const int32_t *moduli, size_t moduli_count,
    const double *readings, size_t readings_count,
    uint32_t group);

#ifdef __cplusplus
}
#endif

#endif
