/* The same rule for many readings: examples/tariff.img is loaded once, and for each reading its two first constants are written, the reading and the one
 * before it. A reading that is below the one before answers with a text; then the one before stays. */
#include <stdio.h>
#include "machine.h"

int main(int argc, char **argv)
{
    static const double readings[] = { 22, 26, 25, 40 };
    static uint8_t image[16384];
    struct chaffwheel_stores m;
    double before = 12;
    FILE *file = argc == 2 ? fopen(argv[1], "rb") : NULL;
    if (!file) {
        fprintf(stderr, "readings: needs examples/tariff.img\n");
        return 5;
    }
    size_t length = fread(image, 1, sizeof image, file), i;
    fclose(file);
    machine_init(&m, 1);
    uint32_t refused = cw_load(&m, image, length);
    for (i = 0; !refused && i < sizeof readings / sizeof *readings; i++) {
        cw_rewind(&m);
        cw_set_scalar(&m, 0, cw_bits_of(readings[i]));
        cw_set_scalar(&m, 1, cw_bits_of(before));
        refused = cw_whole_run(&m, 1000);
        if (refused)
            break;
        if (m.answer[CHAFFWHEEL_OUTCOME] == CHAFFWHEEL_FAULT)
            printf("from %g to %g: fault, %s\n", before, readings[i], chaffwheel_text_of_number(m.answer[CHAFFWHEEL_FAULT_NUMBER]));
        else if (m.answer[CHAFFWHEEL_OUTCOME] == CHAFFWHEEL_VALUE && m.answer[CHAFFWHEEL_KIND] == CHAFFWHEEL_SCALAR) {
            printf("from %g to %g: %.2f\n", before, readings[i], cw_number_of(m.answer[CHAFFWHEEL_PAYLOAD]));
            before = readings[i];
        } else
            printf("from %g to %g: no bill\n", before, readings[i]);
    }
    machine_free(&m);
    if (refused)
        fprintf(stderr, "readings: refused %u, %s\n", refused, chaffwheel_text_of_number(refused));
    return refused ? 4 : 0;
}
