/* Messages to standard error, one line each, and the exit statuses that go with them. */
#ifndef HOST_SAY_H
#define HOST_SAY_H

#include <stddef.h>
#include <stdint.h>

enum status {
    STATUS_GOOD = 0,
    STATUS_DIFFERS = 1,     /* a compared word differs */
    STATUS_BAD = 2,         /* wrong usage, or a file that cannot be used */
    STATUS_NOT_REACHED = 3, /* the run ended elsewhere than at the PC of --until-pc */
    STATUS_REFUSED = 10,    /* plus the refusal number */
    STATUS_SIGNAL = 128     /* plus the signal that stopped the run */
};

/* A place in a text file, with what stands there. */
struct place {
    const char *path;
    size_t line; /* from 1 */
    const char *text;
    size_t length;
};

/* "eco32: SUBJECT: MESSAGE", where the subject is an option or a file. Answers STATUS_BAD. */
int say_bad(const char *subject, const char *message);

/* "eco32: OPTION 'VALUE': MESSAGE". Answers STATUS_BAD. */
int say_bad_value(const char *option, const char *value, const char *message);

/* "eco32: PATH:LINE: 'TEXT': MESSAGE". Answers STATUS_BAD. */
int say_bad_line(const struct place *place, const char *message);

/* Says what the memory was for: a file, an option with its value, or a part of the machine. `value` may be null.
 * Answers STATUS_BAD. */
int say_no_memory(const char *subject, const char *value);

/* Says what was refused, by which number and why; `value` may be null. Answers STATUS_REFUSED plus the number. */
int say_refused(const char *subject, const char *value, uint32_t refusal);

/* "eco32: CAUSE: stopped after STEPS steps", and what else is to say. The cause comes in two parts. */
void say_stopped(const char *cause, const char *more, uint64_t steps, const char *rest);

#endif
