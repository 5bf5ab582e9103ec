/* Measures the stack that the C calls take. Each call is made on a stack of its own, painted before. What lies between its top and the
   lowest byte that was written is what the call took, less the same of an empty function that is called in its place with the same
   arguments. Reads the problems that `depth` prints (src/bin/depth.rs), and prints what docs/stack.sh tells. An answer other than the
   second program's ends it with status 1. */
#define _GNU_SOURCE
#include <stdint.h>
#include <stdio.h>
#include <stdlib.h>
#include <string.h>
#include <sys/mman.h>
#include <ucontext.h>
#include "glaukemis.h"

enum { STACK = 4 << 20, GUARD = 64 << 10, PROBLEMS = 64, CALLS = 6 };
enum { ROWS = GLAUKEMIS_MAX_ROWS, QUANTITIES = GLAUKEMIS_MAX_QUANTITIES, TERMS = GLAUKEMIS_MAX_TERMS };

/* The proved most of repetitions of (A) in a row. */
enum { BOUND = 66 };

/* A line of `depth`. */
struct problem {
    char name[64];
    int repetitions, stage, row;
    uint32_t rank, steps, gauge, m, n;
    int32_t moduli[ROWS], matrix[ROWS * QUANTITIES];
};

static const char *const call_name[CALLS] = {"build_numbers", "weigh", "translate_numbers", "build", "translate", "gauge"};

static struct problem problems[PROBLEMS];
static long bytes[PROBLEMS][CALLS]; /* what each call took on each problem */
static int count;

static uint8_t *stack; /* the painted one, from its lowest byte */

/* What the calls are lent, numbers and bytes, and what they answered. The formula is all 0, and so free of dimension. */
static const struct problem *given;
static int32_t h[GLAUKEMIS_H_COUNT], v[GLAUKEMIS_V_COUNT], w[GLAUKEMIS_W_COUNT], weights[GLAUKEMIS_WEIGHTS_COUNT];
static int32_t coefficients[TERMS], exponents[TERMS * QUANTITIES], kept[GLAUKEMIS_COEFFICIENTS_COUNT], translated[GLAUKEMIS_EXPONENTS_COUNT];
static uint8_t matrix_bytes[4 * ROWS * QUANTITIES], moduli_bytes[4 * ROWS];
static uint8_t h_bytes[GLAUKEMIS_H_BYTES], v_bytes[GLAUKEMIS_V_BYTES], w_bytes[GLAUKEMIS_W_BYTES];
static uint8_t coefficients_bytes[4 * TERMS], exponents_bytes[4 * TERMS * QUANTITIES];
static uint8_t kept_bytes[GLAUKEMIS_COEFFICIENTS_BYTES], translated_bytes[GLAUKEMIS_EXPONENTS_BYTES];
static double readings[QUANTITIES];
static glaukemis_build_answer built;
static glaukemis_weigh_answer weighed;
static glaukemis_translate_answer changed;
static glaukemis_gauge_answer gauged;

/* The empty functions. */
#pragma GCC diagnostic push
#pragma GCC diagnostic ignored "-Wunused-parameter"
#define EMPTY __attribute__((noipa)) static
EMPTY glaukemis_build_answer empty_build_numbers(
    uint32_t m, uint32_t n, const int32_t *a, size_t al, const int32_t *p, size_t pl, int32_t *x, size_t xl, int32_t *y, size_t yl,
    int32_t *z, size_t zl)
{
    return (glaukemis_build_answer){0};
}
EMPTY glaukemis_weigh_answer empty_weigh(
    uint32_t m, uint32_t n, const int32_t *a, size_t al, const int32_t *p, size_t pl, const int32_t *e, size_t el, int32_t *x, size_t xl)
{
    return (glaukemis_weigh_answer){0};
}
EMPTY glaukemis_translate_answer empty_translate_numbers(
    uint32_t m, uint32_t n, const int32_t *a, size_t al, const int32_t *p, size_t pl, const int32_t *c, size_t cl, const int32_t *e,
    size_t el, int32_t *k, size_t kl, int32_t *t, size_t tl)
{
    return (glaukemis_translate_answer){0};
}
EMPTY glaukemis_build_answer empty_build(
    uint32_t m, uint32_t n, const uint8_t *a, size_t al, const uint8_t *p, size_t pl, uint8_t *x, size_t xl, uint8_t *y, size_t yl,
    uint8_t *z, size_t zl)
{
    return (glaukemis_build_answer){0};
}
EMPTY glaukemis_translate_answer empty_translate(
    uint32_t m, uint32_t n, const uint8_t *a, size_t al, const uint8_t *p, size_t pl, const uint8_t *c, size_t cl, const uint8_t *e,
    size_t el, uint8_t *k, size_t kl, uint8_t *t, size_t tl)
{
    return (glaukemis_translate_answer){0};
}
EMPTY glaukemis_gauge_answer empty_gauge(
    uint32_t m, uint32_t n, const int32_t *a, size_t al, const int32_t *p, size_t pl, const double *r, size_t rl, uint32_t group)
{
    return (glaukemis_gauge_answer){0};
}
#pragma GCC diagnostic pop

/* The functions that are called now: those of the library, or the empty ones. */
static __typeof__(glaukemis_build_numbers) *build_numbers;
static __typeof__(glaukemis_weigh) *weigh;
static __typeof__(glaukemis_translate_numbers) *translate_numbers;
static __typeof__(glaukemis_build) *build;
static __typeof__(glaukemis_translate) *translate;
static __typeof__(glaukemis_gauge) *gauge;

static void do_build_numbers(void)
{
    built = build_numbers(given->m, given->n, given->matrix, given->m * given->n, given->moduli, given->m, h, GLAUKEMIS_H_COUNT, v,
        GLAUKEMIS_V_COUNT, w, GLAUKEMIS_W_COUNT);
}
static void do_weigh(void)
{
    weighed = weigh(given->m, given->n, given->matrix, given->m * given->n, given->moduli, given->m, exponents, given->n, weights,
        GLAUKEMIS_WEIGHTS_COUNT);
}
static void do_translate_numbers(void)
{
    changed = translate_numbers(given->m, given->n, given->matrix, given->m * given->n, given->moduli, given->m, coefficients, TERMS,
        exponents, TERMS * given->n, kept, GLAUKEMIS_COEFFICIENTS_COUNT, translated, GLAUKEMIS_EXPONENTS_COUNT);
}
static void do_build(void)
{
    built = build(given->m, given->n, matrix_bytes, 4 * given->m * given->n, moduli_bytes, 4 * given->m, h_bytes, sizeof h_bytes, v_bytes,
        sizeof v_bytes, w_bytes, sizeof w_bytes);
}
static void do_translate(void)
{
    changed = translate(given->m, given->n, matrix_bytes, 4 * given->m * given->n, moduli_bytes, 4 * given->m, coefficients_bytes,
        sizeof coefficients_bytes, exponents_bytes, 4 * TERMS * given->n, kept_bytes, sizeof kept_bytes, translated_bytes,
        sizeof translated_bytes);
}
static void do_gauge(void)
{
    gauged = gauge(given->m, given->n, given->matrix, given->m * given->n, given->moduli, given->m, readings, given->n, 0);
}
static void (*const work[CALLS])(void) = {do_build_numbers, do_weigh, do_translate_numbers, do_build, do_translate, do_gauge};

static void fail(const char *what)
{
    fprintf(stderr, "stack: %s\n", what);
    exit(1);
}

/* Makes a call on the painted stack. */
static void on_stack(void (*call)(void))
{
    static ucontext_t here, there;
    if (getcontext(&there) != 0)
        fail("no context");
    there.uc_stack.ss_sp = stack;
    there.uc_stack.ss_size = STACK;
    there.uc_link = &here;
    makecontext(&there, call, 0);
    if (swapcontext(&here, &there) != 0)
        fail("no stack of its own");
}

/* The bytes from the top of the painted stack to the lowest one that a call wrote. That may be the paint itself: so there are two paints. */
static long used(void (*call)(void))
{
    long most = 0;
    for (int turn = 0; turn < 2; turn++) {
        uint8_t paint = turn ? 0xa5 : 0x5a;
        memset(stack, paint, STACK);
        on_stack(call);
        long low = 0;
        while (low < STACK && stack[low] == paint)
            low++;
        if (STACK - low > most)
            most = STACK - low;
    }
    return most;
}

/* Ends the program unless the last call on the given problem answered what it should. */
static void see(int call)
{
    uint32_t s = 0;
    for (uint32_t i = 0; i < given->m; i++)
        s += given->moduli[i] != 0;
    int build_right =
        built.number == 0 && built.place == 0 && built.rank == given->rank && built.moduli == s && built.steps == given->steps;
    int weigh_right = weighed.number == 0 && weighed.place == 0;
    int translate_right = changed.number == 0 && changed.place == 0 && changed.d == given->n + s - given->rank;
    int gauge_right = gauged.number == given->gauge && gauged.place == 0 && gauged.value == (given->gauge == 0 ? 1.0 : 0.0);
    int right[CALLS] = {build_right, weigh_right, translate_right, build_right, translate_right, gauge_right};
    if (!right[call]) {
        fprintf(stderr, "stack: %s answered other than it should, on %s with %d repetitions\n", call_name[call], given->name,
            given->repetitions);
        exit(1);
    }
}

/* Each number is four bytes, big-endian two's complement. */
static void put(uint8_t *to, const int32_t *numbers, size_t length)
{
    for (size_t i = 0; i < 4 * length; i++)
        to[i] = (uint8_t)((uint32_t)numbers[i / 4] >> (24 - 8 * (i % 4)));
}

static void measure(int at)
{
    given = &problems[at];
    put(matrix_bytes, given->matrix, given->m * given->n);
    put(moduli_bytes, given->moduli, given->m);
    for (int call = 0; call < CALLS; call++) {
        build_numbers = empty_build_numbers, weigh = empty_weigh, translate_numbers = empty_translate_numbers;
        build = empty_build, translate = empty_translate, gauge = empty_gauge;
        long empty = used(work[call]);
        memset(&built, 0xff, sizeof built), memset(&weighed, 0xff, sizeof weighed);
        memset(&changed, 0xff, sizeof changed), memset(&gauged, 0xff, sizeof gauged);
        build_numbers = glaukemis_build_numbers, weigh = glaukemis_weigh, translate_numbers = glaukemis_translate_numbers;
        build = glaukemis_build, translate = glaukemis_translate, gauge = glaukemis_gauge;
        bytes[at][call] = used(work[call]) - empty;
        see(call);
    }
}

static void read_problems(void)
{
    struct problem *p = problems;
    while (scanf("%63s %d %d %d %u %u %u", p->name, &p->repetitions, &p->stage, &p->row, &p->rank, &p->steps, &p->gauge) == 7) {
        if (scanf("%u %u", &p->m, &p->n) != 2 || p->m > ROWS || p->n > QUANTITIES)
            fail("a problem without its size, or too large");
        for (uint32_t i = 0; i < p->m; i++)
            if (scanf("%d", &p->moduli[i]) != 1)
                fail("a modulus is missing");
        for (uint32_t i = 0; i < p->m * p->n; i++)
            if (scanf("%d", &p->matrix[i]) != 1)
                fail("an entry is missing");
        p++;
        if (++count == PROBLEMS)
            fail("too many problems");
    }
    if (!feof(stdin) || count < 3)
        fail("no problems to measure");
    for (int i = 0; i < 3; i++)
        if (problems[i].repetitions != i)
            fail("the ladder does not begin with 0, 1 and 2 repetitions");
}

/* 10912 as 10,912. */
static const char *grouped(long x)
{
    static char text[8][32];
    static int turn;
    char *to = text[turn++ % 8];
    if (labs(x) < 1000)
        sprintf(to, "%ld", x);
    else if (labs(x) < 1000000)
        sprintf(to, "%ld,%03ld", x / 1000, labs(x) % 1000);
    else
        sprintf(to, "%ld,%03ld,%03ld", x / 1000000, labs(x) / 1000 % 1000, labs(x) % 1000);
    return to;
}

static void print_head(void)
{
    printf("| repetitions | problem |");
    for (int call = 0; call < CALLS; call++)
        printf(" %s |", call_name[call]);
    printf("\n|---|---|");
    for (int call = 0; call < CALLS; call++)
        printf("---|");
    putchar('\n');
}

static void row(const char *first, const char *second, const long *of_calls)
{
    printf("| %s | %s |", first, second);
    for (int call = 0; call < CALLS; call++)
        printf(" %s |", grouped(of_calls[call]));
    putchar('\n');
}

/* A row of the figures of one problem. */
static void row_of(const struct problem *p, const long *of_calls)
{
    char first[16], second[128];
    sprintf(first, "%d", p->repetitions);
    if (p->repetitions == 0)
        sprintf(second, "%s, %u by %u", p->name, p->m, p->n);
    else
        sprintf(second, "%s, %u by %u, row %d of stage %d", p->name, p->m, p->n, p->row, p->stage);
    row(first, second, of_calls);
}

static int in_ladder(int at)
{
    return at < count && strcmp(problems[at].name, "ladder") == 0;
}

int main(void)
{
    read_problems();
    stack = mmap(NULL, GUARD + STACK, PROT_READ | PROT_WRITE, MAP_PRIVATE | MAP_ANONYMOUS, -1, 0);
    if (stack == MAP_FAILED || mprotect(stack, GUARD, PROT_NONE) != 0)
        fail("no memory");
    stack += GUARD;
    for (int i = 0; i < QUANTITIES; i++)
        readings[i] = 1.0;
    for (int at = 0; at < count; at++)
        measure(at);

    /* From one repetition on the bytes should lie on a line: a level is what two repetitions take more than one. */
    long level[CALLS], fixed[CALLS], bound[CALLS];
    static long more[PROBLEMS][CALLS];
    int line = 1;
    for (int call = 0; call < CALLS; call++) {
        level[call] = bytes[2][call] - bytes[1][call];
        fixed[call] = bytes[1][call] - level[call];
        bound[call] = fixed[call] + BOUND * level[call];
        for (int at = 1; at < count; at++) {
            if (problems[at].repetitions == 0)
                continue;
            more[at][call] = bytes[at][call] - fixed[call] - problems[at].repetitions * level[call];
            line &= more[at][call] == 0;
        }
    }

    print_head();
    for (int at = 0; at < count; at++)
        if (at < 3 || !in_ladder(at + 1))
            row_of(&problems[at], bytes[at]);
    row("a level", "2 repetitions less 1", level);
    row("fixed", "1 repetition less a level", fixed);
    if (line) {
        char first[16];
        sprintf(first, "%d", BOUND);
        row(first, "computed: fixed, and so many levels", bound);
        int with = 0;
        for (int at = 0; at < count; at++)
            with += problems[at].repetitions > 0;
        printf("\nAll %d problems with a repetition lie on this line, to the byte.\n", with);
        return 0;
    }
    puts("\nNot a line, so nothing is computed from it. What the calls took more than that, where it changes:\n");
    print_head();
    for (int at = 1; at < count; at++)
        if (problems[at].repetitions > 0 && (at == 1 || memcmp(more[at], more[at - 1], sizeof more[at]) != 0))
            row_of(&problems[at], more[at]);
    return 0;
}
