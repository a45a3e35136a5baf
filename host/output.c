#define _XOPEN_SOURCE 700

#include "output.h"

#include <errno.h>
#include <fcntl.h>
#include <stdio.h>
#include <stdlib.h>
#include <string.h>
#include <unistd.h>

/* The place of a file that is there: links are followed, so that a link stays a link. */
static int find_old(struct output *output)
{
    output->exists = 1;
    output->straight = !S_ISREG(output->stat.st_mode);
    if (S_ISDIR(output->stat.st_mode))
        return EISDIR;
    if (S_ISSOCK(output->stat.st_mode))
        return ENXIO;
    if (access(output->path, W_OK) != 0)
        return errno;
    return output->straight || realpath(output->path, output->place) != NULL ? 0 : errno;
}

/* The place of one that is not: its directory's without links, and its name. A link to nothing is not followed. */
static int find_new(struct output *output)
{
    const char *slash = strrchr(output->path, '/');
    const char *name = slash == NULL ? output->path : slash + 1;
    char directory[PATH_MAX];
    int length;
    struct stat link;

    if (lstat(output->path, &link) == 0 || name[0] == '\0')
        return ENOENT;
    length = slash == NULL ? snprintf(directory, sizeof directory, ".")
                           : snprintf(directory, sizeof directory, "%.*s", (int)(name - output->path), output->path);
    if (length < 0 || (size_t)length >= sizeof directory)
        return ENAMETOOLONG;
    if (realpath(directory, output->place) == NULL)
        return errno;
    if (strlen(output->place) + 1 + strlen(name) >= sizeof output->place)
        return ENAMETOOLONG;
    strcat(strcat(output->place, "/"), name);
    return 0;
}

/* In a directory such as /tmp nobody may rename over a file of somebody else. */
static int may_rename(const struct output *output, const char *directory)
{
    struct stat stat_of;

    if (!output->exists || stat(directory, &stat_of) != 0 || !(stat_of.st_mode & S_ISVTX))
        return 1;
    return geteuid() == 0 || geteuid() == output->stat.st_uid || geteuid() == stat_of.st_uid;
}

/* Opens a new file in the place's directory. Answers its descriptor, or -1 with errno. */
static int open_beside(struct output *output)
{
    static const char name[] = ".eco32-XXXXXX";
    size_t length = (size_t)(strrchr(output->place, '/') + 1 - output->place);
    int fd;

    if (length + sizeof name > sizeof output->beside) {
        errno = ENAMETOOLONG;
        return -1;
    }
    memcpy(output->beside, output->place, length);
    output->beside[length] = '\0';
    if (!may_rename(output, output->beside)) {
        errno = EPERM;
        return -1;
    }
    memcpy(output->beside + length, name, sizeof name);
    fd = mkstemp(output->beside);
    output->beside_is_made = fd >= 0;
    return fd;
}

int output_try(struct output *output)
{
    int failed;
    int fd;

    if (stat(output->path, &output->stat) == 0)
        failed = find_old(output);
    else
        failed = errno == ENOENT ? find_new(output) : errno;
    if (failed != 0 || output->straight)
        return failed;
    fd = open_beside(output);
    if (fd < 0)
        return errno;
    close(fd);
    output_drop(output);
    return 0;
}

static int write_all(int fd, const uint8_t *at, size_t length)
{
    while (length != 0) {
        ssize_t written = write(fd, at, length);
        if (written < 0 && errno == EINTR)
            continue;
        if (written <= 0)
            return written == 0 ? ENOSPC : errno;
        at += written;
        length -= (size_t)written;
    }
    return 0;
}

/* The new file has the owner and the mode of the old one, or the mode of new files. Who may not give it the old owner
 * keeps it, without the bits that would lend its owner's rights. */
static void keep_mode(const struct output *output, int fd)
{
    mode_t mask = umask(0);
    mode_t mode = output->exists ? output->stat.st_mode & 07777 : 0666 & ~mask;

    umask(mask);
    if (output->exists && fchown(fd, output->stat.st_uid, output->stat.st_gid) != 0)
        mode &= 0777;
    fchmod(fd, mode);
}

int output_fill(struct output *output, const uint8_t *at, size_t length)
{
    int fd = output->straight ? open(output->path, O_WRONLY | O_NOCTTY) : open_beside(output);
    int failed;

    if (fd < 0)
        return errno;
    failed = write_all(fd, at, length);
    if (failed == 0 && !output->straight) {
        keep_mode(output, fd);
        failed = fsync(fd) == 0 ? 0 : errno;
    }
    return close(fd) == 0 || failed != 0 ? failed : errno;
}

int output_place(struct output *output)
{
    if (!output->beside_is_made)
        return 0;
    if (rename(output->beside, output->place) != 0)
        return errno;
    output->beside_is_made = 0;
    return 0;
}

void output_drop(struct output *output)
{
    if (output->beside_is_made)
        unlink(output->beside);
    output->beside_is_made = 0;
}
