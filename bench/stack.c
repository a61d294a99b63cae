/* How much of the host's stack the calls take: a part of it below the call is filled, and looked at after the call. The deepest run compares two
 * lists of depth 64; the deepest loading has many struct names, and so the deepest check. */
#include <stdio.h>
#include <stdlib.h>
#include <string.h>
#include "chaffwheel_stores.h"

enum { DEEP = 4 << 20, MARK = 0x5A };

static struct chaffwheel_stores m;

static uint8_t image[1 << 20];
static size_t image_len;

#define LEND(name, n) (m.name##_len = (n), m.name = calloc((n), sizeof *m.name))

static void lend(void)
{
    LEND(constants, 512);
    LEND(structs, 2 * 65536);
    LEND(functions, 512);
    LEND(text, 1 << 20);
    LEND(main_code, 8192);
    LEND(main_places, 8192);
    LEND(other_code, 8192);
    LEND(other_places, 8192);
    LEND(stack, 2048);
    LEND(cells, 4096);
    LEND(frames, 256);
    LEND(copy, 2048);
    LEND(trace, 768);
    LEND(heights, 256);
}

/* The part of the stack that lies below this function's caller: filled, or looked at. */
static __attribute__((noinline)) size_t below(int filled)
{
    uint8_t part[DEEP];
    volatile uint8_t *at = part;
    size_t i = 0;
    if (filled)
        for (i = 0; i < DEEP; i++) at[i] = MARK;
    else
        while (i < DEEP && at[i] == MARK) i++;
    return DEEP - i;
}

static uint32_t call_run(void) { return cw_whole_run(&m, 1000000); }
static uint32_t call_load(void) { return cw_load(&m, image, image_len); }
static uint32_t call_check(void) { return cw_check(&m, image, image_len); }
static uint32_t call_new(void) { return cw_new(&m); }
static uint32_t call_save(void) { return cw_save(&m, image, sizeof image); }

static void told(const char *what, uint32_t (*call)(void))
{
    uint32_t n;
    below(1);
    n = call();
    printf("%-36s answers %2u, takes %zu bytes of the stack\n", what, (unsigned)n, below(0));
}

static void op0(uint8_t op) { cw_add_op(&m, op, 0); }
static void op1(uint8_t op, uint16_t a) { cw_add_op1(&m, op, a, 0); }

static void nested(void)
{
    int i;
    op1(36, 0);
    for (i = 0; i < 63; i++) op1(36, 1);
}

static void number(size_t n)
{
    while (n > 127) {
        image[image_len++] = (uint8_t)(128 + n % 128);
        n /= 128;
    }
    image[image_len++] = (uint8_t)n;
}

/* an image of n struct names of four letters, and an empty main */
static void names(size_t n)
{
    size_t i;
    image_len = 0;
    number(0);
    number(n);
    for (i = 0; i < n; i++) {
        number(4);
        memcpy(image + image_len, &(uint32_t){ (uint32_t)i * 2654435761u }, 4);
        image_len += 4;
    }
    number(1);
    number(6);
    memcpy(image + image_len, "<main>", 6);
    image_len += 6;
    number(0);
}

int main(void)
{
    lend();
    told("a new machine", call_new);
    nested();
    nested();
    op0(18);
    op0(37);
    told("two lists of depth 64 compared", call_run);
    told("saving", call_save);
    names(10);
    told("loading 10 struct names", call_load);
    names(60000);
    told("loading 60,000 struct names", call_load);
    told("checking 60,000 struct names", call_check);
    return 0;
}
