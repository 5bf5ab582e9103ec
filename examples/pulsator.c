/* A pulsator on a vacuum line: the dimensionless groups of the rig's quantities, a test formula written in those groups and put back,
   the weight of a term that is not free of dimension, and the groups from gauge readings. What a bench programmer would start from. */
#include <stdint.h>
#include <stdio.h>
#include <string.h>
#include "glaukemis.h"

enum { ROWS = 4, QUANTITIES = 8, TERMS = 4 };

static const char *const dimension[ROWS] = {"mass", "length", "time", "sign"};
static const char *const quantity[QUANTITIES] = {"vacuum", "density", "viscosity", "bore", "length", "flow", "rate", "time"};

/* The dimensions of each quantity. The last row counts what changes sign when the pump runs backwards, and two of that are nothing. */
static const int32_t matrix[ROWS * QUANTITIES] = {
     1,  1,  1, 0, 0,  0,  0, 0,
    -1, -3, -1, 1, 1,  3,  0, 0,
    -2,  0, -1, 0, 0, -1, -1, 1,
     1,  0,  0, 0, 0,  1,  0, 0};
static const int32_t moduli[ROWS] = {0, 0, 0, 2};

/* 3 vacuum bore^4 / (viscosity length flow) - 5 (density flow / (viscosity bore))^2 + 7 rate time - 128 */
static const int32_t coefficients[TERMS] = {3, -5, 7, -128};
static const int32_t exponents[TERMS * QUANTITIES] = {
    1, 0, -1,  4, -1, -1, 0, 0,
    0, 2, -2, -2,  0,  2, 0, 0,
    0, 0,  0,  0,  0,  0, 1, 1,
    0, 0,  0,  0,  0,  0, 0, 0};

/* The second term without its square. */
static const int32_t odd[QUANTITIES] = {0, 1, -1, -1, 0, 1, 0, 0};

/* What the gauges show: pascals, kilograms per cubic metre, pascal seconds, metres, cubic metres per second, pulses per second, seconds. */
static const double readings[QUANTITIES] = {42e3, 1030.0, 2.1e-3, 0.0125, 2.0, 1.5e-4, 1.0, 0.6};

static int refused(const char *call, uint32_t number, uint32_t place)
{
    printf("%s refused: number %u, place %u\n", call, (unsigned)number, (unsigned)place);
    return 1;
}

static void power(const char *name, long long exponent)
{
    if (exponent != 0)
        printf(" %s^%lld", name, exponent);
}

int main(void)
{
    int32_t h[GLAUKEMIS_H_COUNT], v[GLAUKEMIS_V_COUNT], w[GLAUKEMIS_W_COUNT];
    int32_t kept[GLAUKEMIS_COEFFICIENTS_COUNT], translated[GLAUKEMIS_EXPONENTS_COUNT], weights[GLAUKEMIS_WEIGHTS_COUNT];

    /* The groups. */
    glaukemis_build_answer b = glaukemis_build_numbers(ROWS, QUANTITIES, matrix, ROWS * QUANTITIES, moduli, ROWS,
        h, GLAUKEMIS_H_COUNT, v, GLAUKEMIS_V_COUNT, w, GLAUKEMIS_W_COUNT);
    if (b.number != GLAUKEMIS_TAKEN)
        return refused("glaukemis_build_numbers", b.number, b.place);
    uint32_t columns = QUANTITIES + b.moduli, groups = columns - b.rank;
    int32_t group[GLAUKEMIS_MAX_COLUMNS][QUANTITIES];
    printf("%u groups, found in %llu column steps\n", (unsigned)groups, (unsigned long long)b.steps);
    for (uint32_t g = 0; g < groups; g++) {
        printf("g%u =", (unsigned)g + 1);
        for (uint32_t j = 0; j < QUANTITIES; j++) {
            group[g][j] = v[(b.moduli + j) * columns + b.rank + g];
            power(quantity[j], group[g][j]);
        }
        printf("\n");
    }

    /* The formula in the groups; and put back, each group by its exponents. */
    glaukemis_translate_answer t = glaukemis_translate_numbers(ROWS, QUANTITIES, matrix, ROWS * QUANTITIES, moduli, ROWS,
        coefficients, TERMS, exponents, TERMS * QUANTITIES, kept, GLAUKEMIS_COEFFICIENTS_COUNT, translated, GLAUKEMIS_EXPONENTS_COUNT);
    if (t.number != GLAUKEMIS_TAKEN)
        return refused("glaukemis_translate_numbers", t.number, t.place);
    printf("\nthe formula in the groups\n");
    for (uint32_t i = 0; i < TERMS; i++) {
        printf("%+d", (int)kept[i]);
        for (uint32_t g = 0; g < t.d; g++)
            if (translated[i * t.d + g] != 0)
                printf(" g%u^%d", (unsigned)g + 1, (int)translated[i * t.d + g]);
        printf("\n");
    }
    printf("\nthe same, put back\n");
    for (uint32_t i = 0; i < TERMS; i++) {
        printf("%+d", (int)kept[i]);
        for (uint32_t j = 0; j < QUANTITIES; j++) {
            long long sum = 0;
            for (uint32_t g = 0; g < t.d; g++)
                sum += (long long)group[g][j] * translated[i * t.d + g];
            power(quantity[j], sum);
        }
        printf("\n");
    }

    /* A term that cannot be written so, and what it weighs. */
    printf("\n%s^1 %s^-1 %s^-1 %s^1 alone", quantity[1], quantity[2], quantity[3], quantity[5]);
    t = glaukemis_translate_numbers(ROWS, QUANTITIES, matrix, ROWS * QUANTITIES, moduli, ROWS,
        coefficients, 1, odd, QUANTITIES, kept, GLAUKEMIS_COEFFICIENTS_COUNT, translated, GLAUKEMIS_EXPONENTS_COUNT);
    if (t.number == GLAUKEMIS_NOT_FREE) {
        glaukemis_weigh_answer x = glaukemis_weigh(ROWS, QUANTITIES, matrix, ROWS * QUANTITIES, moduli, ROWS,
            odd, QUANTITIES, weights, GLAUKEMIS_WEIGHTS_COUNT);
        if (x.number != GLAUKEMIS_TAKEN)
            return refused("glaukemis_weigh", x.number, x.place);
        printf(" is not free of dimension:");
        for (uint32_t i = 0; i < ROWS; i++)
            power(dimension[i], weights[i]);
    }
    printf("\n");

    /* The groups from the gauges; then one that hangs below zero. */
    printf("\nthe groups from the gauges\n");
    for (uint32_t g = 0; g < groups; g++) {
        glaukemis_gauge_answer x =
            glaukemis_gauge(ROWS, QUANTITIES, matrix, ROWS * QUANTITIES, moduli, ROWS, readings, QUANTITIES, g);
        if (x.number != GLAUKEMIS_TAKEN)
            return refused("glaukemis_gauge", x.number, x.place);
        printf("g%u = %.17g\n", (unsigned)g + 1, x.value);
    }
    double hanging[QUANTITIES];
    memcpy(hanging, readings, sizeof hanging);
    hanging[3] = -0.0125;
    glaukemis_gauge_answer x =
        glaukemis_gauge(ROWS, QUANTITIES, matrix, ROWS * QUANTITIES, moduli, ROWS, hanging, QUANTITIES, 0);
    if (x.number == GLAUKEMIS_BAD_READING)
        printf("no group: the gauge of the %s shows %g\n", quantity[x.place], x.value);
    return 0;
}
