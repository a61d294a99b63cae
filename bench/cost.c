/* One run of an image with a number of units, at once or in so many parts, on the runner's stores times a scale: what `bench/cost` counts the
 * instructions of. */
#include <inttypes.h>
#include <stdio.h>
#include "machine.h"

/* The units in equal parts, the rest with the last; abandoned where it is then paused. */
static uint32_t run_in_parts(struct chaffwheel_stores *m, uint64_t units, uint64_t parts)
{
    uint32_t refused = cw_begin(m);
    for (uint64_t i = 0; !refused && i < parts && m->answer[CHAFFWHEEL_OUTCOME] == CHAFFWHEEL_PAUSED; i++)
        refused = cw_continue(m, units / parts + (i + 1 == parts ? units % parts : 0));
    if (!refused && m->answer[CHAFFWHEEL_OUTCOME] == CHAFFWHEEL_PAUSED)
        refused = cw_abandon(m);
    return refused;
}

int main(int argc, char **argv)
{
    uint8_t image[16384];
    FILE *f = argc == 4 || argc == 5 ? fopen(argv[1], "rb") : NULL;
    if (!f) {
        fprintf(stderr, "usage: cost IMAGE SCALE UNITS [PARTS]\n");
        return 2;
    }
    size_t len = fread(image, 1, sizeof image, f);
    fclose(f);

    struct chaffwheel_stores m;
    machine_init(&m, strtoul(argv[2], NULL, 10));
    uint32_t refused = cw_load(&m, image, len);
    if (!refused)
        refused = run_in_parts(&m, strtoull(argv[3], NULL, 10), argc == 5 ? strtoull(argv[4], NULL, 10) : 1);
    if (refused)
        printf("refused %" PRIu32 "\n", refused);
    else
        printf("%" PRIu64 "\n", m.answer[CHAFFWHEEL_SPENT]);
    machine_free(&m);
    return refused ? 1 : 0;
}
