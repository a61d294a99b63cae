/* How long it takes to check images of a quarter, a half and a whole megabyte: a line for each case. */
#include <inttypes.h>
#include <stdio.h>
#include <string.h>
#include <time.h>
#include "machine.h"

enum { LOAD_CONSTANT = 0, ADD = 8, JUMP_IF_FALSE = 26, CALL = 28, RETURN = 37 }; /* opcodes: docs/RULES.md */

static double seconds(void)
{
    struct timespec t;
    clock_gettime(CLOCK_MONOTONIC, &t);
    return (double)t.tv_sec + 1e-9 * (double)t.tv_nsec;
}

static uint8_t *image;
static size_t len;

static void byte(size_t x) { image[len++] = (uint8_t)x; }

static void number(size_t x)
{
    for (; x > 127; x >>= 7)
        byte(x | 128);
    byte(x);
}

static void operand(size_t x) { byte(x), byte(x >> 8); }

static void head(const char *name, size_t size)
{
    number(strlen(name));
    for (; *name; name++)
        byte((uint8_t)*name);
    number(size);
}

/* one run: all bytes of the code have one place */
static void tail(size_t size)
{
    if (size)
        number(size), number(0);
}

enum shape { ROW, JUMPS, CALLS };

/* A function of about this many bytes that returns a value: a long row of pushes and additions; jumps, each to the last Return; or Calls of the next
 * function, so that every one is tallied. */
static void function(enum shape shape, size_t f, size_t count, size_t size)
{
    char name[16];
    size_t step = shape == ROW ? 4 : shape == JUMPS ? 6 : 6, turns = (size - 4) / step;
    size_t code = 3 + turns * step + 1;
    snprintf(name, sizeof name, "f%zu", f);
    head(name, code);
    byte(LOAD_CONSTANT), operand(0);
    for (size_t i = 0; i < turns; i++)
        switch (shape) {
        case ROW:
            byte(LOAD_CONSTANT), operand(0), byte(ADD);
            break;
        case JUMPS:
            byte(LOAD_CONSTANT), operand(1), byte(JUMP_IF_FALSE), operand((turns - i - 1) * step);
            break;
        case CALLS:
            byte(CALL), operand(f + 1 < count ? f + 1 : 1), operand(0), byte(ADD);
            break;
        }
    byte(RETURN);
    tail(code);
}

/* an empty main, and so many functions of so many bytes */
static void make(enum shape shape, size_t count, size_t size)
{
    len = 0;
    number(2);
    for (size_t i = 0; i < 9; i++)
        byte(0);
    byte(1), byte(0);
    number(0);
    number(count);
    head("<main>", 0), tail(0);
    for (size_t f = 1; f < count; f++)
        function(shape, f, count, size);
}

static void check(struct chaffwheel_stores *m, const char *what, enum shape shape, size_t count, size_t size)
{
    make(shape, count, size);
    double start = seconds();
    uint32_t refused = cw_check(m, image, len);
    double took = seconds() - start;
    printf("%-34s %6zu functions %8zu bytes  ", what, count, len);
    if (refused)
        printf("refused %" PRIu32 " (%" PRIu64 ", %" PRIu64 ")", refused, m->answer[0], m->answer[1]);
    else
        printf("passed, height %" PRIu32, m->heights[count - 1]);
    start = seconds();
    refused = cw_load(m, image, len);
    printf("  checked %.3f s, loaded alone %.3f s\n", took, seconds() - start);
}

int main(void)
{
    static const struct { const char *what; enum shape shape; } kinds[] = {
        { "long rows", ROW }, { "jumps to one Return", JUMPS }, { "calls", CALLS },
    };
    struct chaffwheel_stores m;
    machine_init(&m, 512);
    image = zeros(1 << 22, 1);
    for (size_t k = 0; k < 3; k++)
        for (size_t n = 4; n <= 16; n *= 2)
            check(&m, kinds[k].what, kinds[k].shape, n + 1, 65532);
    for (size_t n = 15000; n <= 60000; n *= 2)
        check(&m, "many short functions", ROW, n + 1, 4);
    free(image);
    machine_free(&m);
    return 0;
}
