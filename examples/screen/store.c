#define _POSIX_C_SOURCE 200809L
#include "store.h"

#include <dirent.h>
#include <errno.h>
#include <fcntl.h>
#include <stdlib.h>
#include <string.h>
#include <unistd.h>

#include "files.h"
#include "screen.h"
#include "text.h"

#define ENDING ".profile"
enum { ENDING_LENGTH = sizeof ENDING - 1, NAME_BYTES = 255 };

int store_open(struct store *s, const char *folder)
{
    *s = (struct store){.path = visible_copy(folder), .folder = open(folder, O_RDONLY | O_DIRECTORY | O_CLOEXEC)};
    if (s->folder < 0) {
        complain("the store '%s' cannot be read: %s", s->path, strerror(errno));
        free(s->path);
        return FAILED;
    }
    uploads_read(&s->uploads, s->folder);
    return ANSWERED;
}

void store_close(struct store *s)
{
    uploads_free(&s->uploads);
    close(s->folder);
    free(s->path);
}

/* Names the file of a profile, or answers 0: what begins with '.' or has '/' in it is no name. */
static int file_name(char to[NAME_BYTES + 1], const char *name)
{
    size_t length = strlen(name);
    if (length == 0 || length + ENDING_LENGTH > NAME_BYTES || name[0] == '.' || strchr(name, '/') != NULL)
        return 0;
    memcpy(to, name, length);
    memcpy(to + length, ENDING, ENDING_LENGTH + 1);
    return 1;
}

static void add_name(struct names *n, const char *file)
{
    size_t length = strlen(file);
    if (length <= ENDING_LENGTH || file[0] == '.' || strcmp(file + length - ENDING_LENGTH, ENDING) != 0)
        return;
    n->all = need_memory(realloc(n->all, (n->count + 1) * sizeof *n->all));
    n->all[n->count++] = need_memory(strndup(file, length - ENDING_LENGTH));
}

static int by_name(const void *a, const void *b) { return strcmp(*(char *const *)a, *(char *const *)b); }

int store_names(const struct store *s, struct names *n)
{
    *n = (struct names){NULL, 0};
    int copy = openat(s->folder, ".", O_RDONLY | O_DIRECTORY | O_CLOEXEC);
    DIR *folder = copy < 0 ? NULL : fdopendir(copy);
    int error = folder == NULL ? errno : 0;
    while (error == 0) {
        errno = 0;
        struct dirent *here = readdir(folder);
        if (here == NULL)
            break;
        add_name(n, here->d_name);
    }
    error = error != 0 ? error : errno;
    if (folder != NULL)
        closedir(folder);
    else if (copy >= 0)
        close(copy);
    if (error != 0) {
        complain("the store '%s' cannot be listed: %s", s->path, strerror(error));
        names_free(n);
        return FAILED;
    }
    if (n->count > 0)
        qsort(n->all, n->count, sizeof *n->all, by_name);
    return ANSWERED;
}

void names_free(struct names *n)
{
    for (size_t i = 0; i < n->count; i++)
        free(n->all[i]);
    free(n->all);
    *n = (struct names){NULL, 0};
}

void entry_load(struct entry *e, const struct store *s, const char *name)
{
    *e = (struct entry){.name = visible_copy(name), .error = ENOENT, .origin = origin_of(&s->uploads, name)};
    char file[NAME_BYTES + 1];
    if (!file_name(file, name))
        return;
    uint8_t bytes[DUCHRELIN_FILE_BYTES + 1] = {0}; /* a byte more than any profile has, so that a longer file is refused as one */
    e->error = read_file(s->folder, file, bytes, sizeof bytes, &e->bytes);
    if (e->error == 0) {
        e->too_long = e->bytes == sizeof bytes;
        e->first = bytes[0];
        e->code = ask_read(bytes, e->bytes, &e->profile);
    }
}

void entry_free(struct entry *e) { free(e->name); }

int entry_check(const struct entry *e, const struct store *s)
{
    if (e->error == 0)
        return ANSWERED;
    if (e->error == ENOENT)
        complain("there is no profile '%s' in the store '%s'; '%s list' shows those that there are", e->name, s->path, PROGRAM);
    else
        complain("the profile '%s' in the store '%s' cannot be read: %s", e->name, s->path, file_error(e->error));
    return FAILED;
}
