/*
 * The screen: the five steps of the job over a folder of profiles. Commands and their words are in options.c, the library is asked in
 * ask.c, a route is worked out in route.c, and a picture in plot.c.
 */
#include <errno.h>
#include <inttypes.h>
#include <stdarg.h>
#include <stdio.h>
#include <stdlib.h>
#include <string.h>

#include "duchrelin_words.h"
#include "list.h"
#include "options.h"
#include "picture.h"
#include "report.h"
#include "say.h"
#include "screen.h"
#include "text.h"

void complain(const char *format, ...)
{
    fflush(stdout);
    fprintf(stderr, "%s: ", PROGRAM);
    va_list values;
    va_start(values, format);
    vfprintf(stderr, format, values);
    va_end(values);
    fputc('\n', stderr);
}

static void explain_code(uint64_t code)
{
    printf("%" PRIu64 " %s\n", code, duchrelin_code_name(code));
    say_code(stdout, code, "");
}

/* One code, or all of them. */
static int explain(const struct options *o)
{
    if (o->count == 0) {
        for (uint64_t code = DUCHRELIN_HEADER; code <= DUCHRELIN_ROOM; code++)
            explain_code(code);
        return ANSWERED;
    }
    const char *text = o->names[0];
    size_t digits = strspn(text, "0123456789");
    uint64_t code = digits > 0 && digits < 4 && text[digits] == '\0' ? strtoull(text, NULL, 10) : UINT64_MAX;
    if (code > DUCHRELIN_ROOM) {
        complain("refusals have the numbers 1 to %d", (int)DUCHRELIN_ROOM);
        return FAILED;
    }
    explain_code(code);
    return ANSWERED;
}

/* Writes the SVG where it is to go. */
static int write_svg(const struct picture *p, const char *path)
{
    int to_file = strcmp(path, "-") != 0;
    FILE *to = to_file ? fopen(path, "w") : stdout;
    int error = to == NULL ? errno : 0;
    if (error == 0) {
        picture_svg(p, to);
        error = ferror(to) ? EIO : 0;
        if (to_file && fclose(to) != 0)
            error = errno;
    }
    if (error == 0)
        return ANSWERED;
    char *shown = visible_copy(path);
    complain("the picture cannot be written to '%s': %s", shown, strerror(error));
    free(shown);
    return FAILED;
}

static int draw(const struct options *o, struct route *r)
{
    struct picture *p = need_memory(malloc(sizeof *p));
    int status = ANSWERED;
    r->code = picture_make(p, r, o->hop);
    if (r->code != DUCHRELIN_ANSWERED) { /* not after an answered route; were it so, it would be told as any refusal is */
        r->place = (o->hop > 0 ? o->hop : r->hop_count) + 1;
        r->asked = DELAY;
        say_refusal(r);
        status = REFUSED;
    } else if (o->svg != NULL) {
        say_authors(stderr, r);
        status = write_svg(p, o->svg);
    } else {
        say_authors(stdout, r);
        printf("\n");
        picture_text(p);
    }
    free(p);
    return status;
}

static int run(const struct options *o, const struct store *s)
{
    struct route *r = need_memory(malloc(sizeof *r));
    int status = route_load(r, s, o->names, o->count);
    r->over_link = o->over_link;
    r->link = o->link;
    if (status == ANSWERED) {
        status = route_run(r);
        if (status == REFUSED)
            say_refusal(r);
        else if (o->command == PICTURE)
            status = draw(o, r);
        else
            say_report(r);
    }
    route_free(r);
    free(r);
    return status;
}

static int follow(const struct options *o)
{
    if (o->command == HELP || o->command == VERSION) {
        o->command == HELP ? say_help() : say_version();
        return ANSWERED;
    }
    if (o->command == EXPLAIN)
        return explain(o);
    struct store s;
    if (store_open(&s, o->store) != ANSWERED)
        return FAILED;
    int status = o->command == LIST ? list_store(&s) : o->command == SHOW ? show_profiles(&s, o->names, o->count) : run(o, &s);
    store_close(&s);
    return status;
}

int main(int argc, char **argv)
{
    struct options o;
    if (options_read(&o, argc, argv) != ANSWERED)
        return FAILED;
    int status = follow(&o);
    if (fflush(stdout) != 0 || ferror(stdout)) {
        complain("standard output cannot be written: %s", strerror(errno));
        return FAILED;
    }
    return status;
}
