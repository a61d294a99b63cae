/* What a unit can cost at most where a text is compared and where a function is looked for by its name: a line for each case. */
#include <inttypes.h>
#include <stdio.h>
#include <string.h>
#include <time.h>
#include "machine.h"

enum { LOAD_CONSTANT = 0, EQUAL = 18, JUMP_IF_FALSE = 26, CALL_CALLABLE = 31, RETURN = 37 }; /* opcodes: docs/RULES.md */

static double seconds(void)
{
    struct timespec t;
    clock_gettime(CLOCK_MONOTONIC, &t);
    return (double)t.tv_sec + 1e-9 * (double)t.tv_nsec;
}

static void must(uint32_t refused, const char *what)
{
    if (!refused)
        return;
    fprintf(stderr, "unit: %s was refused %" PRIu32 "\n", what, refused);
    exit(1);
}

/* Runs what was emitted, and tells the time of one turn. What its other instructions take is in the line of the shortest text, or the fewest functions. */
static void run(struct chaffwheel_stores *m, const char *what, size_t of, const char *things, size_t turns)
{
    double start = seconds();
    must(cw_whole_run(m, UINT64_MAX), "the run");
    double took = seconds() - start;
    if (m->answer[0] == 3)
        fprintf(stderr, "unit: fault %" PRIu64 "\n", m->answer[3]), exit(1);
    printf("%-24s %8zu %-36s %10.3f microseconds a turn\n", what, of, things, 1e6 * took / (double)turns);
}

/* Two texts of so many bytes that are the same, compared again and again. */
static void texts(struct chaffwheel_stores *m, size_t length, size_t turns)
{
    uint8_t *text = zeros(length, 1);
    must(cw_new(m), "a new machine");
    must(cw_add_string(m, text, length), "a string");
    must(cw_add_string(m, text, length), "a string");
    for (size_t i = 0; i < turns; i++) {
        must(cw_add_op1(m, LOAD_CONSTANT, 0, 0), "code");
        must(cw_add_op1(m, LOAD_CONSTANT, 1, 0), "code");
        must(cw_add_op(m, EQUAL, 0), "code");
        must(cw_add_op1(m, JUMP_IF_FALSE, 0, 0), "code");
    }
    run(m, "Equal", length, "bytes in each of two texts", turns);
    free(text);
}

/* The oldest of so many functions is called by its name; the names share all bytes but the last three. */
static void names(struct chaffwheel_stores *m, size_t functions, size_t length, size_t turns)
{
    uint8_t *name = zeros(length, 1);
    char what[40];
    must(cw_new(m), "a new machine");
    must(cw_add_boolean(m, false), "a boolean");
    for (size_t f = functions; f-- > 0;) {
        name[length - 3] = (uint8_t)(f >> 16), name[length - 2] = (uint8_t)(f >> 8), name[length - 1] = (uint8_t)f;
        must(cw_begin_function(m, name, length), "a function");
        must(cw_add_op1(m, LOAD_CONSTANT, 0, 0), "code");
        must(cw_add_op(m, RETURN, 0), "code");
        if (f + 1 == functions)
            must(cw_add_reference(m, name, length), "a reference");
    }
    must(cw_end_function(m), "the end of a function");
    for (size_t i = 0; i < turns; i++) {
        must(cw_add_op1(m, LOAD_CONSTANT, 1, 0), "code");
        must(cw_add_op2(m, CALL_CALLABLE, 0, 0, 0), "code");
        must(cw_add_op1(m, JUMP_IF_FALSE, 0, 0), "code");
    }
    snprintf(what, sizeof what, "functions with names of %zu bytes", length);
    run(m, "CallCallable", functions, what, turns);
    free(name);
}

int main(void)
{
    struct chaffwheel_stores m;
    machine_init(&m, 256);
    for (size_t length = 1; length <= 1 << 20; length *= 16)
        texts(&m, length, length < 1 << 16 ? 5000 : 200);
    for (size_t functions = 1; functions <= 4096; functions *= 8)
        for (size_t length = 8; length <= 512; length *= 8)
            names(&m, functions, length, 500);
    machine_free(&m);
    return 0;
}
