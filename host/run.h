/* A run of any length, cut into calls of the library. */
#ifndef HOST_RUN_H
#define HOST_RUN_H

#include "options.h"
#include "pairs.h"
#include "tally.h"
#include "world.h"

/* How a run ended. */
struct ending {
    uint64_t made;      /* steps */
    uint32_t eid;       /* of the exception that ended it, or 32 */
    uint32_t slot;      /* of its last step's load or store, or 33 */
    uint64_t charge;    /* of its steps, with --charges */
    struct tally tally; /* of its steps, with --charge-table */
    int reached;        /* it stands at the PC of --until-pc */
    int broke;          /* it stands at a PC of --break, to which it came */
    int signal;         /* the one that stopped it before its end, or 0 */
    int unwritten;      /* the errno of standard output, which stopped it before its end, or 0 */
};

/* Makes the steps and prints a line about them. Failures are told; the answer is an exit status, STATUS_GOOD
 * whichever way the run ended. */
int run(const struct options *options, const struct pairs *script, struct world *world, struct ending *ending);

#endif
