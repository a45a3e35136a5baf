/* Signals, which end a run at a step. */
#ifndef HOST_STOP_H
#define HOST_STOP_H

/* From now on SIGINT and SIGTERM are only noted, each the first time; the second one ends the program. */
void stop_prepare(void);

/* The signal that was noted, or 0. */
int stop_signal(void);

/* From now on a write past the limit of a file's size, or to a pipe that nobody reads, fails as one to a full disk
 * does, and does not end the program: what else was asked to be saved is saved. */
void stop_no_write_signals(void);

#endif
