#include "say.h"

#include <inttypes.h>
#include <stdlib.h>
#include <string.h>

#include "duchrelin_words.h"
#include "files.h"
#include "text.h"

enum { NAME_COLUMNS = 16, HEADING_COLUMNS = 17, FEW_BUCKETS = 4 };

static void indent(FILE *to) { fprintf(to, "%*s", NAME_COLUMNS, ""); }

/* A line under a profile's name, or more. */
static void say_sentence(FILE *to, const char *text)
{
    if (*text == '\0')
        return;
    indent(to);
    put_lines(to, NAME_COLUMNS, NAME_COLUMNS, text);
}

static void say_buckets(FILE *to, const struct curve *c, int all)
{
    uint64_t shown = all || c->count <= FEW_BUCKETS ? c->count : FEW_BUCKETS;
    char words[DUCHRELIN_MOST_BUCKETS * 40 + 80] = "";
    add_text(words, sizeof words, "%" PRIu64 " %s, rate and burst:", c->count, plural(c->count, "bucket", "buckets"));
    for (uint64_t i = 0; i < shown; i++)
        add_text(words, sizeof words, " (%" PRIu64 ",%" PRIu64 ")", bucket_rate(c, i), bucket_burst(c, i));
    if (shown < c->count)
        add_text(words, sizeof words, " and %" PRIu64 " more", c->count - shown);
    say_sentence(to, words);
}

void add_curve(char *to, size_t room, const struct curve *c)
{
    uint64_t burst = 0;
    ask_burst(c, &burst);
    add_text(to, room, "up to %" PRIu64 " %s at once, %" PRIu64 " a tick in the long run", burst, plural(burst, "bit", "bits"),
             long_run_rate(c));
}

static void say_curve(FILE *to, const struct curve *c, int all_buckets)
{
    char words[ABOUT_BYTES] = "traffic: ";
    add_curve(words, sizeof words, c);
    say_sentence(to, words);
    say_buckets(to, c, all_buckets);
}

void add_server(char *to, size_t room, struct server s)
{
    if (only_delays(s))
        add_text(to, room, "all there is");
    else
        add_text(to, room, "%" PRIu64 " %s a tick", s.rate, plural(s.rate, "bit", "bits"));
    add_text(to, room, " after a latency of %" PRIu64 " %s", s.latency, plural(s.latency, "tick", "ticks"));
}

void add_link(char *to, size_t room, struct link l)
{
    add_text(to, room, "a link of %" PRIu64 " %s a tick", l.rate, plural(l.rate, "bit", "bits"));
    if (l.frame == 0)
        add_text(to, room, ", bit by bit");
    else
        add_text(to, room, " with frames of up to %" PRIu64 " %s", l.frame, plural(l.frame, "bit", "bits"));
}

static void say_server(FILE *to, struct server s)
{
    char words[ABOUT_BYTES] = "";
    add_text(words, sizeof words, "%s: ", duchrelin_kind_name(s.kind));
    if (only_delays(s)) {
        add_text(words, sizeof words, "a device that only delays, by %" PRIu64 " %s", s.latency, plural(s.latency, "tick", "ticks"));
    } else {
        add_text(words, sizeof words, "serves ");
        add_server(words, sizeof words, s);
    }
    say_sentence(to, words);
}

/* What a file would be that no edition has. Edition 1 is the one that has no device that only delays. */
static void about_header(const struct entry *e, char to[ABOUT_BYTES])
{
    unsigned edition = e->first >> 4, kind = e->first & 15;
    if (e->bytes == 0)
        add_text(to, ABOUT_BYTES, "The file is empty.");
    else
        add_text(to, ABOUT_BYTES, "By its first byte it is of edition %u and kind %u%s.", edition, kind,
                 edition == 1 && kind == DUCHRELIN_KIND_PURE_DELAY ? ", a device that only delays" : "");
}

void about_file(const struct entry *e, char to[ABOUT_BYTES])
{
    *to = '\0';
    if (e->too_long)
        add_text(to, ABOUT_BYTES, "The file has more bytes than the longest profile, which has %d.", (int)DUCHRELIN_FILE_BYTES);
    else if (e->code == DUCHRELIN_HEADER)
        about_header(e, to);
    else if (e->code == DUCHRELIN_LENGTH)
        add_text(to, ABOUT_BYTES, "The file has %zu %s.", e->bytes, plural(e->bytes, "byte", "bytes"));
    else if (e->code == DUCHRELIN_RANGE)
        add_text(to, ABOUT_BYTES, "In a file the one number that can be out of range is the rate of a port, by being 0.");
}

static void say_headed(FILE *to, const char *heading, const char *text)
{
    fprintf(to, "%-*s", HEADING_COLUMNS, heading);
    put_lines(to, HEADING_COLUMNS, HEADING_COLUMNS, text);
}

void say_code(FILE *to, uint64_t code, const char *here)
{
    say_headed(to, "  what it means", duchrelin_code_meaning(code));
    if (*here != '\0')
        say_headed(to, "  here", here);
    say_headed(to, "  what to do", duchrelin_code_advice(code));
}

static void say_trouble(FILE *to, const struct entry *e)
{
    indent(to);
    if (e->error != 0) {
        fprintf(to, "cannot be read: %s\n", file_error(e->error));
        return;
    }
    fprintf(to, "REFUSED, %" PRIu64 " %s\n", e->code, duchrelin_code_name(e->code));
    char about[ABOUT_BYTES];
    about_file(e, about);
    say_sentence(to, duchrelin_code_meaning(e->code));
    say_sentence(to, about);
    say_sentence(to, duchrelin_code_advice(e->code));
}

/* What an accepted profile holds. */
static void say_profile(FILE *to, const struct profile *p, int in_full)
{
    if (p->kind == DUCHRELIN_KIND_CURVE)
        say_curve(to, &p->curve, in_full);
    else
        say_server(to, p->server);
    char words[ABOUT_BYTES] = "";
    if (in_full)
        add_text(words, sizeof words, "the file is of edition %" PRIu64, p->edition);
    say_sentence(to, words);
}

void say_entry(FILE *to, const struct entry *e, int in_full)
{
    size_t at = characters(e->name);
    if (at >= NAME_COLUMNS || *e->origin.what == '\0')
        fprintf(to, "%s\n", e->name);
    else
        fprintf(to, "%s%*s", e->name, (int)(NAME_COLUMNS - at), "");
    if (at >= NAME_COLUMNS && *e->origin.what != '\0')
        indent(to);
    if (*e->origin.what != '\0')
        put_lines(to, NAME_COLUMNS, NAME_COLUMNS, e->origin.what);
    if (e->error != 0 || e->code != DUCHRELIN_ANSWERED)
        say_trouble(to, e);
    else
        say_profile(to, &e->profile, in_full);
    char *origin = origin_words(e->origin);
    say_sentence(to, origin);
    free(origin);
}
