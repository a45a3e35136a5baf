#define _POSIX_C_SOURCE 200809L

#include "stop.h"

#include <signal.h>
#include <string.h>

static volatile sig_atomic_t noted;

static void note(int signal)
{
    noted = signal;
}

/* Also where the shell has them ignored, as it does for a command that it starts with &: who sends such a process
 * a SIGINT means it. A write that waits goes on after the signal, so that nothing of a trace is lost. */
void stop_prepare(void)
{
    struct sigaction action;

    memset(&action, 0, sizeof action);
    action.sa_handler = note;
    action.sa_flags = SA_RESTART | (int)SA_RESETHAND;
    sigemptyset(&action.sa_mask);
    sigaction(SIGINT, &action, NULL);
    sigaction(SIGTERM, &action, NULL);
}

int stop_signal(void)
{
    return noted;
}

void stop_no_write_signals(void)
{
    struct sigaction action;

    memset(&action, 0, sizeof action);
    action.sa_handler = SIG_IGN;
    sigemptyset(&action.sa_mask);
    sigaction(SIGXFSZ, &action, NULL);
    sigaction(SIGPIPE, &action, NULL);
}
