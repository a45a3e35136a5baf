/* The files that are written after the run. Failures are told; the answers are exit statuses. */
#ifndef HOST_OUTPUTS_H
#define HOST_OUTPUTS_H

#include "options.h"
#include "output.h"
#include "world.h"

enum { OUTPUT_SAVE, OUTPUT_BELT, OUTPUT_RAM, OUTPUT_COUNT };

struct outputs {
    struct output each[OUTPUT_COUNT];
};

/* Before the run: every file can be written, no two are one, and none is one that is read. */
int outputs_try(const struct options *options, struct outputs *outputs);

/* After the run: writes them all, and only then puts them in their places. If one cannot be written, all old files
 * stay. */
int outputs_write(struct outputs *outputs, const struct world *world);

#endif
