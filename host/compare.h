/* Words of the model against given ones. */
#ifndef HOST_COMPARE_H
#define HOST_COMPARE_H

#include "options.h"
#include "pairs.h"
#include "world.h"

/* Reads the words to compare with, if there are any, and has each address stand for a word. Failures are told;
 * the answer is an exit status. */
int compare_read(const struct options *options, const struct world *world, struct pairs *words);

/* Prints a line for each word that differs, and one for all. Answers STATUS_GOOD or STATUS_DIFFERS. */
int compare(const struct world *world, const struct pairs *words);

#endif
