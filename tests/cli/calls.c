/* Has the system call whose number is in ECO32_CALL_AT, of those with which files are written, fail as on a full
 * disk; or, if ECO32_CALL_KILLS is set, end the program by SIGKILL in its middle: a write has written half by then. */
#include <errno.h>
#include <signal.h>
#include <stdio.h>
#include <stdlib.h>
#include <unistd.h>

int __real_mkstemp(char *name);
ssize_t __real_write(int fd, const void *at, size_t length);
int __real_fsync(int fd);
int __real_close(int fd);
int __real_rename(const char *from, const char *to);
int __wrap_mkstemp(char *name);
ssize_t __wrap_write(int fd, const void *at, size_t length);
int __wrap_fsync(int fd);
int __wrap_close(int fd);
int __wrap_rename(const char *from, const char *to);

/* Whether it is this call's turn. */
static int is_due(void)
{
    static long made;
    const char *at = getenv("ECO32_CALL_AT");

    made++;
    return at != NULL && strtol(at, NULL, 10) == made;
}

/* What becomes of a call whose turn it is: killed, or -1. */
static int end(void)
{
    if (getenv("ECO32_CALL_KILLS") != NULL)
        raise(SIGKILL);
    errno = ENOSPC;
    return -1;
}

int __wrap_mkstemp(char *name)
{
    return is_due() ? end() : __real_mkstemp(name);
}

ssize_t __wrap_write(int fd, const void *at, size_t length)
{
    if (!is_due())
        return __real_write(fd, at, length);
    return __real_write(fd, at, length / 2) < 0 ? -1 : end();
}

int __wrap_fsync(int fd)
{
    return is_due() ? end() : __real_fsync(fd);
}

int __wrap_close(int fd)
{
    int due = is_due();
    int answer = __real_close(fd);

    return due ? end() : answer;
}

int __wrap_rename(const char *from, const char *to)
{
    return is_due() ? end() : __real_rename(from, to);
}
