/* Whole files, read up to a bound. Failures are told; the answer is an exit status. */
#ifndef HOST_FILES_H
#define HOST_FILES_H

#include "bytes.h"

/* Answered in place of a status, and told by the caller: the file has more than `most` bytes. */
#define FILE_LONGER (-1)

/* Reads a file of at most `most` bytes. `bytes` has to be empty before, and is the caller's to free after,
 * whatever the answer. */
int file_read(const char *path, size_t most, struct bytes *bytes);

#endif
