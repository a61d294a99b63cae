/* A machine with stores from the heap: the runner's sizes times a scale. Shared by broker.c and bench/cost.c. */
#ifndef MACHINE_H
#define MACHINE_H

#include <stdlib.h>
#include "chaffwheel_stores.h"

static inline void *zeros(size_t n, size_t size)
{
    void *p = calloc(n, size);
    if (!p)
        abort();
    return p;
}

static inline void machine_init(struct chaffwheel_stores *m, size_t scale)
{
    cw_stores_from(m, zeros(1, cw_stores_size(scale)), scale);
}

/* the constants stand first in the block */
static inline void machine_free(struct chaffwheel_stores *m)
{
    free(m->constants);
}

#endif
