/* The lines script: which interrupt lines hold from which step on. */
#ifndef HOST_SCRIPT_H
#define HOST_SCRIPT_H

#include "options.h"
#include "pairs.h"

/* Reads the script, if there is one. Failures are told; the answer is an exit status. */
int script_read(const struct options *options, struct pairs *script);

/* How many steps of this run are made before the script's line i holds: its step counts from --first-step. */
uint64_t script_after(const struct options *options, const struct pairs *script, size_t i);

#endif
