/* Runs a program with a terminal as its standard error, and copies what comes there to standard output, a
 * carriage return as \r. If ECO32_SIGNAL is set, the program gets that signal when the first byte came. */
#define _XOPEN_SOURCE 600
#include <fcntl.h>
#include <signal.h>
#include <stdio.h>
#include <stdlib.h>
#include <sys/wait.h>
#include <unistd.h>

static void become(const char *terminal, char **words)
{
    int fd = open(terminal, O_RDWR);

    if (fd < 0 || dup2(fd, STDERR_FILENO) < 0)
        _exit(127);
    execv(words[0], words);
    _exit(127);
}

int main(int count, char **words)
{
    int fd = posix_openpt(O_RDWR | O_NOCTTY);
    const char *signal = getenv("ECO32_SIGNAL");
    int status = 0;
    char byte;
    pid_t child;

    if (count < 2 || fd < 0 || grantpt(fd) != 0 || unlockpt(fd) != 0)
        return 126;
    child = fork();
    if (child < 0)
        return 126;
    if (child == 0)
        become(ptsname(fd), words + 1);
    /* The read fails once the child has closed the terminal. */
    while (read(fd, &byte, 1) == 1) {
        if (signal != NULL)
            kill(child, atoi(signal));
        signal = NULL;
        if (byte == '\r')
            fputs("\\r", stdout);
        else
            putchar(byte);
    }
    waitpid(child, &status, 0);
    return WIFEXITED(status) ? WEXITSTATUS(status) : 125;
}
