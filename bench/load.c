/* How long it takes to load images of many struct names, or to refuse them, and to add names one by one: a line for each case. */
#include <inttypes.h>
#include <stdio.h>
#include <string.h>
#include <time.h>
#include "machine.h"

enum order { ASCENDING, DESCENDING, SHUFFLED };

static double seconds(void)
{
    struct timespec t;
    clock_gettime(CLOCK_MONOTONIC, &t);
    return (double)t.tv_sec + 1e-9 * (double)t.tv_nsec;
}

/* the number at place i in this order; a step that has no factor with n goes through all of them */
static size_t at(enum order order, size_t i, size_t n)
{
    return order == ASCENDING ? i : order == DESCENDING ? n - 1 - i : (i * 611953u + 7) % n;
}

static size_t number(uint8_t *out, size_t x)
{
    size_t n = 0;
    for (; x > 127; x >>= 7)
        out[n++] = (uint8_t)(x | 128);
    out[n++] = (uint8_t)x;
    return n;
}

/* a name: a prefix of the letter p, and x in `digits` bytes, the highest first, so that the order of bytes is that of numbers */
static size_t name(uint8_t *out, size_t x, size_t prefix, size_t digits)
{
    memset(out, 'p', prefix);
    for (size_t i = digits; i-- > 0; x >>= 8)
        out[prefix + i] = (uint8_t)x;
    return prefix + digits;
}

/* an image of no constants, n struct names and an empty main; where `repeat` is below n, name `repeat` is the first again */
static size_t image_of(uint8_t *out, enum order order, size_t n, size_t prefix, size_t digits, size_t repeat)
{
    size_t len = number(out, 0);
    len += number(out + len, n);
    for (size_t i = 0; i < n; i++) {
        len += number(out + len, prefix + digits);
        len += name(out + len, at(order, i == repeat ? 0 : i, n), prefix, digits);
    }
    static const uint8_t main_only[] = { 1, 6, '<', 'm', 'a', 'i', 'n', '>', 0 };
    memcpy(out + len, main_only, sizeof main_only);
    return len + sizeof main_only;
}

static void load(struct chaffwheel_stores *m, uint8_t *image, const char *what, enum order order, size_t n, size_t prefix, size_t digits, size_t repeat)
{
    size_t len = image_of(image, order, n, prefix, digits, repeat);
    double start = seconds();
    uint32_t refused = cw_load(m, image, len);
    printf("%-44s %7zu names %8zu bytes  %s %2" PRIu32 "  %.3f s\n", what, n, len, refused ? "refused" : "loaded ", refused, seconds() - start);
}

static void add(struct chaffwheel_stores *m, const char *what, size_t n)
{
    uint8_t bytes[8];
    double start = seconds();
    for (size_t i = 0; i < n; i++) {
        size_t len = name(bytes, at(SHUFFLED, i, n), 0, 4);
        if (cw_add_struct_info(m, bytes, len))
            abort();
    }
    printf("%-44s %7zu names  %.3f s\n", what, n, seconds() - start);
}

int main(void)
{
    struct chaffwheel_stores m;
    machine_init(&m, 512);
    uint8_t *image = zeros(1 << 22, 1);
    load(&m, image, "ascending", ASCENDING, 60000, 0, 7, SIZE_MAX);
    load(&m, image, "descending", DESCENDING, 60000, 0, 7, SIZE_MAX);
    load(&m, image, "shuffled", SHUFFLED, 60000, 0, 7, SIZE_MAX);
    load(&m, image, "descending, as many as there may be", DESCENDING, 65536, 0, 14, SIZE_MAX);
    load(&m, image, "shuffled, the last repeats the first", SHUFFLED, 60000, 0, 7, 59999);
    load(&m, image, "descending, more than there may be", DESCENDING, 262000, 0, 3, SIZE_MAX);
    load(&m, image, "descending, and the last repeats the first", DESCENDING, 262000, 0, 3, 261999);
    load(&m, image, "descending, behind a long prefix", DESCENDING, 27000, 33, 4, SIZE_MAX);
    if (cw_new(&m))
        abort();
    add(&m, "added one by one", 2000);
    add(&m, "and found again", 2000);
    free(image);
    machine_free(&m);
    return 0;
}
