/* Files of the store's folder, read whole. */
#ifndef FILES_H
#define FILES_H

#include <stddef.h>

/* Reads a regular file of a folder, `room` bytes at most. Answers 0, and the count of bytes; or the error's number, which is NOT_A_FILE
 * for a folder, a pipe or a device. */
enum { NOT_A_FILE = -1 };
int read_file(int folder, const char *name, void *to, size_t room, size_t *count);

/* The error in words. */
const char *file_error(int error);

#endif
