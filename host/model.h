/* A run by the library on what the world holds: one call. */
#ifndef HOST_MODEL_H
#define HOST_MODEL_H

#include "world.h"

/* What a run is asked for. */
struct request {
    uint64_t steps;
    uint16_t lines;
    int to_exception;       /* else a plain run */
    const uint8_t *charges; /* the list of charges, or null */
};

/* Without a list the charge is 0. */
struct eco32_charged model_run(struct world *world, const struct request *request);

#endif
