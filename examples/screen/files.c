#define _POSIX_C_SOURCE 200809L
#include "files.h"

#include <errno.h>
#include <fcntl.h>
#include <string.h>
#include <sys/stat.h>
#include <unistd.h>

static int read_all(int file, char *to, size_t room, size_t *count)
{
    *count = 0;
    while (*count < room) {
        ssize_t got = read(file, to + *count, room - *count);
        if (got == 0)
            break;
        if (got > 0)
            *count += (size_t)got;
        else if (errno != EINTR)
            return errno;
    }
    return 0;
}

int read_file(int folder, const char *name, void *to, size_t room, size_t *count)
{
    /* Without O_NONBLOCK a pipe in the folder would hold the screen up. */
    int file = openat(folder, name, O_RDONLY | O_NONBLOCK | O_CLOEXEC | O_NOCTTY);
    if (file < 0)
        return errno;
    struct stat about;
    int error = fstat(file, &about) != 0 ? errno : !S_ISREG(about.st_mode) ? NOT_A_FILE : read_all(file, to, room, count);
    close(file);
    return error;
}

const char *file_error(int error) { return error == NOT_A_FILE ? "It is not a regular file" : strerror(error); }
