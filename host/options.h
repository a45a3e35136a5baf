/* The command line. */
#ifndef HOST_OPTIONS_H
#define HOST_OPTIONS_H

#include <stddef.h>
#include <stdint.h>

enum option_name {
    OPTION_RAM_SIZE,
    OPTION_LOAD,
    OPTION_BELT,
    OPTION_STEPS,
    OPTION_UNTIL_EXCEPTION,
    OPTION_UNTIL_PC,
    OPTION_BREAK,
    OPTION_LINES,
    OPTION_LINES_SCRIPT,
    OPTION_FIRST_STEP,
    OPTION_TRACE,
    OPTION_CHARGES,
    OPTION_CHARGE_TABLE,
    OPTION_REGISTERS,
    OPTION_TLB,
    OPTION_VIEW,
    OPTION_COMPARE,
    OPTION_SAVE,
    OPTION_BELT_OUT,
    OPTION_RAM_OUT,
    OPTION_HELP,
    OPTION_VERSION,
    OPTION_COUNT
};

/* How often an option may be given that may be given several times. */
#define VALUES_MOST 32

/* The values of such an option. */
struct values {
    const char *text[VALUES_MOST];
    uint64_t number[VALUES_MOST];
    size_t count;
};

struct options {
    const char *given[OPTION_COUNT]; /* the (last) value of an option, "" for one without a value, null if not given */
    const char *rom;
    const char *ram; /* null if not given */
    uint64_t ram_size;
    uint64_t steps;
    uint64_t first_step;
    uint64_t until_pc;
    struct values breaks;
    struct values views;
    uint16_t lines;
};

/* Failures are told; the answer is an exit status. The texts stay those of the command line, whose words change
 * their order. */
int options_read(int count, char **words, struct options *options);

/* As it is written: with -- before it. */
const char *option_text(enum option_name option);

/* Prints the help. */
void options_help(void);

#endif
