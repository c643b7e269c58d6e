/*
 * Makes a store from its readable source: make_store SOURCE FOLDER writes NAME.profile into FOLDER for each profile of SOURCE, and
 * uploads.txt, which says of each what it is and who uploaded it. source.txt beside this file says what a source looks like.
 * The numbers go through the library alone: raw buckets through duchrelin_normalise, then the two writers.
 */
#include <errno.h>
#include <inttypes.h>
#include <stdio.h>
#include <stdlib.h>
#include <string.h>

#include "duchrelin_words.h"

enum {
    LINE_BYTES = 2048,
    TEXT_BYTES = 128,
    PATH_BYTES = 4096,
    RAW_NUMBERS = 2 * (DUCHRELIN_MOST_BUCKETS + 1) /* rate and burst; one bucket too many, so that COUNT is said */
};

struct numbers {
    uint64_t all[RAW_NUMBERS];
    size_t count;
};

/* The profile at hand, as far as its lines have been read. */
struct draft {
    char name[TEXT_BYTES], is[TEXT_BYTES], by[TEXT_BYTES], edition[TEXT_BYTES];
};

static const char *source_name;
static unsigned long line_number;

static void stop(const char *what, const char *why)
{
    fprintf(stderr, "make_store: %s:%lu: %s%s%s\n", source_name, line_number, what, *why ? ": " : "", why);
    exit(1);
}

static void check(uint64_t code)
{
    if (code != DUCHRELIN_ANSWERED)
        stop(duchrelin_code_name(code), duchrelin_code_meaning(code));
}

static FILE *open_in(const char *folder, const char *name, const char *ending)
{
    char path[PATH_BYTES];
    int length = snprintf(path, sizeof path, "%s/%s%s", folder, name, ending);
    if (length < 0 || (size_t)length >= sizeof path)
        stop("the folder's name is too long", "");
    FILE *file = fopen(path, "wb");
    if (file == NULL)
        stop(path, strerror(errno));
    return file;
}

static void close_file(FILE *file, const char *name)
{
    int failed = ferror(file);
    if (fclose(file) != 0 || failed)
        stop(name, "cannot be written");
}

/* The numbers of a line, separated by spaces. */
static struct numbers numbers_of(const char *text)
{
    struct numbers n = {.count = 0};
    for (text += strspn(text, " "); *text != '\0'; text += strspn(text, " ")) {
        char *end;
        errno = 0;
        uint64_t number = strtoull(text, &end, 10);
        if (*text < '0' || *text > '9' || errno != 0 || (*end != ' ' && *end != '\0'))
            stop("not a whole number of 64 bits", text);
        if (n.count == RAW_NUMBERS)
            stop("too many numbers", "");
        n.all[n.count++] = number;
        text = end;
    }
    return n;
}

/* The edition that a file is to have. Where no line says so it is the first that has its kind, since every reader knows that one. */
static uint64_t edition_of(const struct draft *d, uint64_t kind)
{
    if (*d->edition == '\0')
        return kind == DUCHRELIN_KIND_PURE_DELAY ? 2 : 1;
    struct numbers n = numbers_of(d->edition);
    if (n.count != 1)
        stop("an edition is one number", "");
    return n.all[0];
}

/* The file of a curve, of a server or of a device that only delays, by its kind, in `bytes`. */
static duchrelin_written file_of(uint64_t edition, uint64_t kind, const struct numbers *n, uint8_t bytes[DUCHRELIN_FILE_BYTES])
{
    if (kind == DUCHRELIN_KIND_CURVE) {
        uint64_t curve[DUCHRELIN_CURVE_NUMBERS];
        duchrelin_answer normal = duchrelin_normalise(n->all, n->count, curve, DUCHRELIN_CURVE_NUMBERS);
        check(normal.code);
        return duchrelin_write_curve(edition, curve, DUCHRELIN_BUCKET_NUMBERS * normal.count, bytes, DUCHRELIN_FILE_BYTES);
    }
    if (kind == DUCHRELIN_KIND_PURE_DELAY) {
        if (n->count != 1)
            stop("a delay has one number", "");
        return duchrelin_write_server(edition, kind, 0, n->all[0], bytes, DUCHRELIN_FILE_BYTES);
    }
    if (n->count != 2)
        stop("a server has two numbers", "");
    return duchrelin_write_server(edition, kind, n->all[0], n->all[1], bytes, DUCHRELIN_FILE_BYTES);
}

/* Writes the profile of which all lines are read, and its line of uploads.txt. */
static void finish(struct draft *d, uint64_t kind, const char *text, const char *folder, FILE *uploads)
{
    if (*d->name == '\0' || *d->is == '\0' || *d->by == '\0')
        stop("the lines 'profile', 'is' and 'by' come before the numbers", "");
    struct numbers n = numbers_of(text);
    uint8_t bytes[DUCHRELIN_FILE_BYTES];
    duchrelin_written written = file_of(edition_of(d, kind), kind, &n, bytes);
    check(written.code);
    FILE *file = open_in(folder, d->name, ".profile");
    fwrite(bytes, 1, written.bytes, file);
    close_file(file, d->name);
    fprintf(uploads, "%s | %s | %s\n", d->name, d->is, d->by);
    *d->name = *d->is = *d->by = *d->edition = '\0';
}

static void keep(char to[TEXT_BYTES], const char *text)
{
    if (*text == '\0' || strlen(text) >= TEXT_BYTES || strchr(text, '|') != NULL)
        stop("not a text of 1 to 127 bytes without '|'", text);
    strcpy(to, text);
}

static void keep_name(char to[TEXT_BYTES], const char *text)
{
    if (text[strspn(text, "abcdefghijklmnopqrstuvwxyz0123456789-")] != '\0')
        stop("a name has small letters, digits and '-' alone", text);
    keep(to, text);
}

/* The kind of profile whose numbers follow a word; 0 where none do. */
static uint64_t kind_of(const char *word)
{
    if (strcmp(word, "curve") == 0)
        return DUCHRELIN_KIND_CURVE;
    if (strcmp(word, "server") == 0)
        return DUCHRELIN_KIND_RATE_LATENCY;
    return strcmp(word, "delay") == 0 ? DUCHRELIN_KIND_PURE_DELAY : 0;
}

/* One line of the source, without its line feed. */
static void take(char *line, struct draft *d, const char *folder, FILE *uploads)
{
    size_t length = strcspn(line, " ");
    char *text = line + length + strspn(line + length, " ");
    line[length] = '\0';
    if (*line == '\0' || *line == '#')
        return;
    if (strcmp(line, "profile") == 0)
        keep_name(d->name, text);
    else if (strcmp(line, "is") == 0)
        keep(d->is, text);
    else if (strcmp(line, "by") == 0)
        keep(d->by, text);
    else if (strcmp(line, "edition") == 0)
        keep(d->edition, text);
    else if (kind_of(line) != 0)
        finish(d, kind_of(line), text, folder, uploads);
    else
        stop("no such word", line);
}

int main(int argc, char **argv)
{
    if (argc != 3) {
        fprintf(stderr, "usage: make_store SOURCE FOLDER\n");
        return 2;
    }
    source_name = argv[1];
    FILE *source = fopen(argv[1], "r");
    if (source == NULL)
        stop("cannot be read", strerror(errno));
    FILE *uploads = open_in(argv[2], "uploads", ".txt");
    fprintf(uploads, "# What each profile of this folder is, and who uploaded it: name | what it is | uploaded by\n");
    struct draft draft = {"", "", "", ""};
    char line[LINE_BYTES];
    while (fgets(line, sizeof line, source) != NULL) {
        line_number++;
        size_t length = strcspn(line, "\n");
        if (line[length] != '\n')
            stop("a line too long, or without its end", "");
        line[length] = '\0';
        take(line, &draft, argv[2], uploads);
    }
    if (*draft.name != '\0')
        stop("the last profile has no numbers", draft.name);
    fclose(source);
    close_file(uploads, "uploads.txt");
    return 0;
}
