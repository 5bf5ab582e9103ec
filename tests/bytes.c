/* The calls on bytes from C: they answer what the calls on numbers answer, and write the same numbers, four bytes each. A length that is
   no multiple of four is refused, and then nothing lent is changed. Prints what is wrong, and ends with status 1 if anything is. */
#include <stdint.h>
#include <stdio.h>
#include <string.h>
#include "glaukemis.h"

/* Three quantities in one row, which counts modulo 3; 7 x^2 y^2 z - 2 x^-3, written in the groups. */
static const int32_t matrix[3] = {1, 2, 0}, moduli[1] = {3};
static const int32_t coefficients[2] = {7, -2}, exponents[6] = {2, 2, 1, -3, 0, 0};
static const uint8_t matrix_bytes[12] = {0, 0, 0, 1, 0, 0, 0, 2}, moduli_bytes[4] = {0, 0, 0, 3};
static const uint8_t coefficients_bytes[8] = {0, 0, 0, 7, 0xff, 0xff, 0xff, 0xfe};
static const uint8_t exponents_bytes[24] = {0, 0, 0, 2, 0, 0, 0, 2, 0, 0, 0, 1, 0xff, 0xff, 0xff, 0xfd};

static int32_t h[GLAUKEMIS_H_COUNT], v[GLAUKEMIS_V_COUNT], w[GLAUKEMIS_W_COUNT];
static int32_t kept[GLAUKEMIS_COEFFICIENTS_COUNT], translated[GLAUKEMIS_EXPONENTS_COUNT];
static uint8_t h_bytes[GLAUKEMIS_H_BYTES], v_bytes[GLAUKEMIS_V_BYTES], w_bytes[GLAUKEMIS_W_BYTES];
static uint8_t kept_bytes[GLAUKEMIS_COEFFICIENTS_BYTES], translated_bytes[GLAUKEMIS_EXPONENTS_BYTES];

static int wrong;

static void hold(const char *what, int right)
{
    if (!right) {
        printf("bytes: %s\n", what);
        wrong = 1;
    }
}

/* Each number of a whole buffer as four bytes. */
static int same(const uint8_t *bytes, const int32_t *numbers, size_t count)
{
    for (size_t i = 0; i < 4 * count; i++)
        if (bytes[i] != (uint8_t)((uint32_t)numbers[i / 4] >> (24 - 8 * (i % 4))))
            return 0;
    return 1;
}

static int all(uint8_t byte, const uint8_t *bytes, size_t length)
{
    for (size_t i = 0; i < length; i++)
        if (bytes[i] != byte)
            return 0;
    return 1;
}

static void paint(int byte)
{
    memset(h, byte, sizeof h), memset(v, byte, sizeof v), memset(w, byte, sizeof w);
    memset(kept, byte, sizeof kept), memset(translated, byte, sizeof translated);
    memset(h_bytes, byte, sizeof h_bytes), memset(v_bytes, byte, sizeof v_bytes), memset(w_bytes, byte, sizeof w_bytes);
    memset(kept_bytes, byte, sizeof kept_bytes), memset(translated_bytes, byte, sizeof translated_bytes);
}

static glaukemis_build_answer build(size_t matrix_length, size_t v_length)
{
    return glaukemis_build(1, 3, matrix_bytes, matrix_length, moduli_bytes, 4, h_bytes, sizeof h_bytes, v_bytes, v_length, w_bytes,
        sizeof w_bytes);
}

static glaukemis_translate_answer translate(size_t coefficients_length, size_t kept_length)
{
    return glaukemis_translate(1, 3, matrix_bytes, 12, moduli_bytes, 4, coefficients_bytes, coefficients_length, exponents_bytes, 24,
        kept_bytes, kept_length, translated_bytes, sizeof translated_bytes);
}

int main(void)
{
    paint(0x5a);
    glaukemis_build_answer b = build(12, sizeof v_bytes);
    glaukemis_build_answer c = glaukemis_build_numbers(
        1, 3, matrix, 3, moduli, 1, h, GLAUKEMIS_H_COUNT, v, GLAUKEMIS_V_COUNT, w, GLAUKEMIS_W_COUNT);
    hold("the build is refused", b.number == GLAUKEMIS_TAKEN && b.place == 0 && b.rank == 1 && b.moduli == 1 && b.steps > 0);
    hold("the builds differ", c.number == b.number && c.place == b.place && c.rank == b.rank && c.moduli == b.moduli && c.steps == b.steps);
    hold("H differs", same(h_bytes, h, GLAUKEMIS_H_COUNT));
    hold("V differs", same(v_bytes, v, GLAUKEMIS_V_COUNT));
    hold("W differs", same(w_bytes, w, GLAUKEMIS_W_COUNT));

    glaukemis_translate_answer t = translate(8, sizeof kept_bytes);
    glaukemis_translate_answer u = glaukemis_translate_numbers(1, 3, matrix, 3, moduli, 1, coefficients, 2, exponents, 6, kept,
        GLAUKEMIS_COEFFICIENTS_COUNT, translated, GLAUKEMIS_EXPONENTS_COUNT);
    hold("the translation is refused", t.number == GLAUKEMIS_TAKEN && t.place == 0 && t.d == 3);
    hold("the translations differ", u.number == t.number && u.place == t.place && u.d == t.d);
    hold("the coefficients differ", same(kept_bytes, kept, GLAUKEMIS_COEFFICIENTS_COUNT));
    hold("the exponents differ", same(translated_bytes, translated, GLAUKEMIS_EXPONENTS_COUNT));
    hold("the first term is wrong", kept[0] == 7 && translated[0] == 0 && translated[1] == 2 && translated[2] == 1);

    paint(0xa5);
    b = build(11, sizeof v_bytes);
    hold("a torn matrix is not refused 2", b.number == GLAUKEMIS_BAD_INPUT_LENGTH && b.place == 0 && b.steps == 0);
    b = build(12, sizeof v_bytes - 1);
    hold("a torn V is not refused 3", b.number == GLAUKEMIS_BAD_OUTPUT_LENGTH && b.place == 0 && b.steps == 0);
    t = translate(7, sizeof kept_bytes);
    hold("torn coefficients are not refused 2", t.number == GLAUKEMIS_BAD_INPUT_LENGTH && t.place == 0 && t.d == 0);
    t = translate(8, sizeof kept_bytes - 1);
    hold("a torn output is not refused 3", t.number == GLAUKEMIS_BAD_OUTPUT_LENGTH && t.place == 0 && t.d == 0);
    hold("a refusal changed H", all(0xa5, h_bytes, sizeof h_bytes));
    hold("a refusal changed V", all(0xa5, v_bytes, sizeof v_bytes));
    hold("a refusal changed W", all(0xa5, w_bytes, sizeof w_bytes));
    hold("a refusal changed the coefficients", all(0xa5, kept_bytes, sizeof kept_bytes));
    hold("a refusal changed the exponents", all(0xa5, translated_bytes, sizeof translated_bytes));
    return wrong;
}
