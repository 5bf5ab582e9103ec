/* The header's numbers held to the library: each limit is taken and the next number beyond it refused by its name, each least size is
   enough and one less is not, and each name of a refusal that a call can give is the number that comes, with its place. Prints what is
   wrong, and ends with status 1 if anything is. */
#include <math.h>
#include <stdint.h>
#include <stdio.h>
#include "glaukemis.h"

/* Longer than any limit. */
enum { ROWS = 12, QUANTITIES = 20, TERMS = 70 };

static int wrong;

static void is(int line, const char *what, uint32_t number, uint32_t place, uint32_t right, uint32_t right_place)
{
    if (number != right || place != right_place) {
        printf("header, line %d: %s: number %u at %u, not %u at %u\n", line, what, (unsigned)number, (unsigned)place, (unsigned)right,
            (unsigned)right_place);
        wrong = 1;
    }
}
#define IS(answer, right, at) is(__LINE__, #answer, (answer).number, (answer).place, right, at)
#define TAKEN(answer) IS(answer, GLAUKEMIS_TAKEN, 0)

static void hold(int line, const char *what, int holds)
{
    if (!holds) {
        printf("header, line %d: not so: %s\n", line, what);
        wrong = 1;
    }
}
#define HOLD(condition) hold(__LINE__, #condition, condition)

/* The problem and formula that each call begins from: zeros, but for one number in each list. */
static int32_t matrix[ROWS * QUANTITIES], moduli[ROWS], coefficients[TERMS], exponents[TERMS * QUANTITIES];
static double readings[QUANTITIES];
static uint8_t zeros[4 * TERMS * QUANTITIES];

static int32_t h[GLAUKEMIS_H_COUNT], v[GLAUKEMIS_V_COUNT], w[GLAUKEMIS_W_COUNT], weights[GLAUKEMIS_WEIGHTS_COUNT];
static int32_t kept[GLAUKEMIS_COEFFICIENTS_COUNT], translated[GLAUKEMIS_EXPONENTS_COUNT];
static uint8_t h_bytes[GLAUKEMIS_H_BYTES], v_bytes[GLAUKEMIS_V_BYTES], w_bytes[GLAUKEMIS_W_BYTES];
static uint8_t kept_bytes[GLAUKEMIS_COEFFICIENTS_BYTES], translated_bytes[GLAUKEMIS_EXPONENTS_BYTES];

/* The calls, with what is less than the least size of each output. */
static glaukemis_weigh_answer weigh(uint32_t m, uint32_t n, size_t less)
{
    return glaukemis_weigh(m, n, matrix, m * n, moduli, m, exponents, n, weights, GLAUKEMIS_WEIGHTS_COUNT - less);
}
static glaukemis_build_answer build(uint32_t m, uint32_t n, size_t less_h, size_t less_v, size_t less_w)
{
    return glaukemis_build_numbers(m, n, matrix, m * n, moduli, m, h, GLAUKEMIS_H_COUNT - less_h, v, GLAUKEMIS_V_COUNT - less_v, w,
        GLAUKEMIS_W_COUNT - less_w);
}
static glaukemis_translate_answer translate(uint32_t m, uint32_t n, size_t terms, size_t less_kept, size_t less_translated)
{
    return glaukemis_translate_numbers(m, n, matrix, m * n, moduli, m, coefficients, terms, exponents, terms * n, kept,
        GLAUKEMIS_COEFFICIENTS_COUNT - less_kept, translated, GLAUKEMIS_EXPONENTS_COUNT - less_translated);
}
static glaukemis_build_answer build_bytes(size_t less_h, size_t less_v, size_t less_w)
{
    return glaukemis_build(1, 1, zeros, 4, zeros, 4, h_bytes, sizeof h_bytes - less_h, v_bytes, sizeof v_bytes - less_v, w_bytes,
        sizeof w_bytes - less_w);
}
static glaukemis_translate_answer translate_bytes(size_t terms, size_t less_kept, size_t less_translated)
{
    return glaukemis_translate(1, 1, zeros, 4, zeros, 4, zeros, 4 * terms, zeros, 4 * terms, kept_bytes, sizeof kept_bytes - less_kept,
        translated_bytes, sizeof translated_bytes - less_translated);
}
static glaukemis_gauge_answer gauge(uint32_t m, uint32_t n, size_t count, uint32_t group)
{
    return glaukemis_gauge(m, n, matrix, m * n, moduli, m, readings, count, group);
}

/* A list's number at a place is at its limits, and then beyond them; afterwards it is 0 again. */
#define LIMITS(list, place, least, most, answer, refusal) \
    do { \
        list[place] = least; \
        TAKEN(answer); \
        list[place] = most; \
        TAKEN(answer); \
        list[place] = (least) - 1; \
        IS(answer, refusal, place); \
        list[place] = (most) + 1; \
        IS(answer, refusal, place); \
        list[place] = 0; \
    } while (0)

int main(void)
{
    for (int j = 0; j < QUANTITIES; j++)
        readings[j] = 1.0;

    /* Sizes and lengths. */
    TAKEN(weigh(1, 1, 0));
    TAKEN(weigh(GLAUKEMIS_MAX_ROWS, GLAUKEMIS_MAX_QUANTITIES, 0));
    IS(weigh(0, 1, 0), GLAUKEMIS_BAD_SIZES, 0);
    IS(weigh(1, 0, 0), GLAUKEMIS_BAD_SIZES, 0);
    IS(weigh(GLAUKEMIS_MAX_ROWS + 1, 1, 0), GLAUKEMIS_BAD_SIZES, 0);
    IS(weigh(1, GLAUKEMIS_MAX_QUANTITIES + 1, 0), GLAUKEMIS_BAD_SIZES, 0);
    TAKEN(translate(2, 3, GLAUKEMIS_MAX_TERMS, 0, 0));
    IS(translate(2, 3, GLAUKEMIS_MAX_TERMS + 1, 0, 0), GLAUKEMIS_BAD_INPUT_LENGTH, 0);
    TAKEN(gauge(1, GLAUKEMIS_MAX_QUANTITIES, GLAUKEMIS_MAX_READINGS, 0));
    IS(gauge(1, GLAUKEMIS_MAX_QUANTITIES, GLAUKEMIS_MAX_READINGS + 1, 0), GLAUKEMIS_BAD_INPUT_LENGTH, 0);
    IS(weigh(1, 1, 1), GLAUKEMIS_BAD_OUTPUT_LENGTH, 0);
    TAKEN(build(1, 1, 0, 0, 0));
    IS(build(1, 1, 1, 0, 0), GLAUKEMIS_BAD_OUTPUT_LENGTH, 0);
    IS(build(1, 1, 0, 1, 0), GLAUKEMIS_BAD_OUTPUT_LENGTH, 0);
    IS(build(1, 1, 0, 0, 1), GLAUKEMIS_BAD_OUTPUT_LENGTH, 0);
    IS(translate(1, 1, 1, 1, 0), GLAUKEMIS_BAD_OUTPUT_LENGTH, 0);
    IS(translate(1, 1, 1, 0, 1), GLAUKEMIS_BAD_OUTPUT_LENGTH, 0);
    TAKEN(build_bytes(0, 0, 0));
    IS(build_bytes(4, 0, 0), GLAUKEMIS_BAD_OUTPUT_LENGTH, 0);
    IS(build_bytes(0, 4, 0), GLAUKEMIS_BAD_OUTPUT_LENGTH, 0);
    IS(build_bytes(0, 0, 4), GLAUKEMIS_BAD_OUTPUT_LENGTH, 0);
    TAKEN(translate_bytes(GLAUKEMIS_MAX_TERMS, 0, 0));
    IS(translate_bytes(GLAUKEMIS_MAX_TERMS, 4, 0), GLAUKEMIS_BAD_OUTPUT_LENGTH, 0);
    IS(translate_bytes(GLAUKEMIS_MAX_TERMS, 0, 4), GLAUKEMIS_BAD_OUTPUT_LENGTH, 0);

    /* Values. */
    LIMITS(moduli, 2, 0, GLAUKEMIS_MAX_MODULUS, weigh(3, 2, 0), GLAUKEMIS_BAD_MODULUS);
    LIMITS(matrix, 5, -GLAUKEMIS_MAX_ENTRY, GLAUKEMIS_MAX_ENTRY, weigh(3, 2, 0), GLAUKEMIS_BAD_ENTRY);
    LIMITS(exponents, 1, -GLAUKEMIS_MAX_EXPONENT, GLAUKEMIS_MAX_EXPONENT, weigh(3, 2, 0), GLAUKEMIS_BAD_EXPONENT);
    LIMITS(exponents, 7, -GLAUKEMIS_MAX_EXPONENT, GLAUKEMIS_MAX_EXPONENT, translate(1, 2, 4, 0, 0), GLAUKEMIS_BAD_EXPONENT);
    LIMITS(coefficients, 0, INT32_MIN + 1, INT32_MAX - 1, translate(1, 1, 1, 0, 0), GLAUKEMIS_TAKEN);

    /* The most columns. */
    for (int i = 0; i < GLAUKEMIS_MAX_ROWS; i++)
        moduli[i] = 1;
    glaukemis_build_answer most = build(GLAUKEMIS_MAX_ROWS, GLAUKEMIS_MAX_QUANTITIES, 0, 0, 0);
    TAKEN(most);
    HOLD(GLAUKEMIS_MAX_QUANTITIES + most.moduli == GLAUKEMIS_MAX_COLUMNS);
    for (int i = 0; i < GLAUKEMIS_MAX_ROWS; i++)
        moduli[i] = 0;

    /* A term with a weight, here the third one. */
    matrix[0] = 1;
    exponents[2] = 1;
    IS(translate(1, 1, 4, 0, 0), GLAUKEMIS_NOT_FREE, 2);
    exponents[2] = 0;

    /* Group 0 of the row (1 p) has the exponents -p and 1. */
    matrix[1] = GLAUKEMIS_MAX_POWER;
    TAKEN(gauge(1, 2, 2, 0));
    matrix[1] = GLAUKEMIS_MAX_POWER + 1;
    IS(gauge(1, 2, 2, 0), GLAUKEMIS_BAD_POWER, 0);
    IS(gauge(1, 2, 2, 1), GLAUKEMIS_NO_GROUP, 1);
    IS(gauge(1, 2, 2, UINT32_MAX), GLAUKEMIS_NO_GROUP, UINT32_MAX);
    readings[1] = -2.5;
    IS(gauge(1, 2, 2, 0), GLAUKEMIS_BAD_READING, 1);
    HOLD(gauge(1, 2, 2, 0).value == -2.5);
    readings[1] = INFINITY;
    IS(gauge(1, 2, 2, 0), GLAUKEMIS_BAD_READING, 1);
    readings[1] = 1.0;
    matrix[1] = 2;
    readings[0] = 1e300;
    IS(gauge(1, 2, 2, 0), GLAUKEMIS_BAD_VALUE, 0);
    readings[0] = 1.0;

    /* R10.10: 1000 on the diagonal of four rows, and -1 right of it. */
    for (int i = 0; i < 4; i++)
        for (int j = 0; j < 5; j++)
            matrix[i * 5 + j] = j == i ? 1000 : j == i + 1 ? -1 : 0;
    IS(build(4, 5, 0, 0, 0), GLAUKEMIS_BUILD_OVERFLOW, 0);

    /* What no call here gives, or not exactly: as the rules have it. */
    HOLD(GLAUKEMIS_M == INT32_MAX);
    HOLD(GLAUKEMIS_TRANSLATED_OVERFLOW == 9);
    HOLD(GLAUKEMIS_BAD_LINE == 10);
    return wrong;
}
