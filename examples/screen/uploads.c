#define _POSIX_C_SOURCE 200809L
#include "uploads.h"

#include <stdio.h>
#include <stdlib.h>
#include <string.h>

#include "files.h"
#include "screen.h"
#include "text.h"

enum { TEXT_BYTES = 1 << 20 };

/* A text of the folder with an end of string behind it; "" where it is missing, too long or not to be read. */
static char *read_text(int folder, const char *name)
{
    char *text = need_memory(malloc(TEXT_BYTES + 1));
    size_t count = 0;
    int error = read_file(folder, name, text, TEXT_BYTES + 1, &count);
    if (error != 0)
        complain("%s of this store cannot be read: %s", name, file_error(error));
    else if (count > TEXT_BYTES)
        complain("%s of this store is longer than %d bytes and was not read", name, TEXT_BYTES);
    if (error != 0 || count > TEXT_BYTES)
        count = 0;
    for (size_t i = 0; i < count; i++)
        if (text[i] == '\0')
            text[i] = '?';
    text[count] = '\0';
    return need_memory(realloc(text, count + 1));
}

/* A text without the blanks around it; it is altered in place. */
static char *trim(char *text)
{
    text += strspn(text, " \t\r");
    size_t length = strlen(text);
    while (length > 0 && strchr(" \t\r", text[length - 1]) != NULL)
        length--;
    text[length] = '\0';
    return text;
}

/* Takes the next line from a text: trimmed, visible, and not a remark; NULL at the end. `number` counts the lines. */
static char *next_line(char **rest, unsigned long *number)
{
    while (**rest != '\0') {
        char *line = *rest;
        size_t length = strcspn(line, "\n");
        *rest += length + (line[length] == '\n');
        line[length] = '\0';
        ++*number;
        line = trim(line);
        if (*line != '\0' && *line != '#') {
            make_visible(line);
            return line;
        }
    }
    return NULL;
}

static void read_uploads(struct uploads *u, char *rest)
{
    unsigned long number = 0;
    for (char *line; (line = next_line(&rest, &number)) != NULL;) {
        char *what = strchr(line, '|');
        char *author = what == NULL ? NULL : strchr(what + 1, '|');
        if (author == NULL || strchr(author + 1, '|') != NULL) {
            complain("uploads.txt of this store, line %lu: not 'name | what it is | uploaded by', left out", number);
            continue;
        }
        *what++ = *author++ = '\0';
        u->uploads = need_memory(realloc(u->uploads, (u->upload_count + 1) * sizeof *u->uploads));
        u->uploads[u->upload_count++] = (struct upload){trim(line), trim(what), trim(author)};
    }
}

static void read_authors(struct uploads *u, char *rest)
{
    unsigned long number = 0;
    for (char *line; (line = next_line(&rest, &number)) != NULL;) {
        u->authors = need_memory(realloc(u->authors, (u->author_count + 1) * sizeof *u->authors));
        u->authors[u->author_count++] = line;
    }
}

void uploads_read(struct uploads *u, int folder)
{
    *u = (struct uploads){.uploads_text = read_text(folder, "uploads.txt"), .authors_text = read_text(folder, "authors.txt")};
    read_uploads(u, u->uploads_text);
    read_authors(u, u->authors_text);
}

void uploads_free(struct uploads *u)
{
    free(u->uploads_text);
    free(u->authors_text);
    free(u->uploads);
    free(u->authors);
}

static int is_known(const struct uploads *u, const char *author)
{
    for (size_t i = 0; i < u->author_count; i++)
        if (strcmp(u->authors[i], author) == 0)
            return 1;
    return 0;
}

struct origin origin_of(const struct uploads *u, const char *name)
{
    struct origin o = {NOT_RECORDED, "", ""};
    for (size_t i = 0; i < u->upload_count; i++) {
        const struct upload *here = &u->uploads[i];
        if (strcmp(here->name, name) != 0)
            continue;
        if (o.standing != NOT_RECORDED)
            return (struct origin){RECORDED_TWICE, o.what, o.author};
        o = (struct origin){is_known(u, here->author) ? KNOWN : NOT_KNOWN, here->what, here->author};
    }
    return o;
}

char *origin_words(struct origin o)
{
    size_t room = strlen(o.author) + 80;
    char *words = need_memory(calloc(room, 1));
    if (o.standing == RECORDED_TWICE)
        add_text(words, room, "author unclear, twice in uploads.txt (NOT KNOWN)");
    else if (o.standing == NOT_RECORDED)
        add_text(words, room, "author not recorded, not in uploads.txt (NOT KNOWN)");
    else if (*o.author == '\0')
        add_text(words, room, "author not recorded, left blank in uploads.txt (NOT KNOWN)");
    else
        add_text(words, room, "uploaded by %s (%s)", o.author, o.standing == KNOWN ? "known" : "NOT KNOWN");
    return words;
}
