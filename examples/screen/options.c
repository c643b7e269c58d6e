#include "options.h"

#include <stdio.h>
#include <stdlib.h>
#include <string.h>

#include "duchrelin.h"
#include "screen.h"
#include "text.h"

#ifndef DUCHRELIN_VERSION
#define DUCHRELIN_VERSION "of no release"
#endif

/* A command, how many names it takes, and what to say where there are fewer or more. */
static const struct {
    const char *word;
    enum command command;
    size_t least, most;
    const char *too_few, *too_many;
} commands[] = {
    {"list", LIST, 0, 0, "", "'list' takes no names"},
    {"show", SHOW, 1, (size_t)-1, "'show' takes the names of profiles", ""},
    {"route", ROUTE, 2, 1 + DUCHRELIN_MOST_SERVERS, "'route' takes the name of the traffic and then those of the ports",
     "a route has 32 ports at most"},
    {"picture", PICTURE, 2, 1 + DUCHRELIN_MOST_SERVERS, "'picture' takes the name of the traffic and then those of the ports",
     "a route has 32 ports at most"},
    {"explain", EXPLAIN, 0, 1, "", "'explain' takes the number of one refusal, or nothing for all of them"},
};

void say_help(void)
{
    printf("usage: %s [--store FOLDER] COMMAND [NAME...]\n\n", PROGRAM);
    printf("%s",
           "Plans a route over the profiles of a store, for the five steps of the job.\n"
           "\n"
           "  list                         1  pick the switch model: every profile, what it\n"
           "                                  holds, who uploaded it\n"
           "  show NAME...                 2  add its profile: one in full, all its buckets\n"
           "                               3  check who uploaded it: 'list', 'show', 'route'\n"
           "                                  and 'picture' all say so\n"
           "  route TRAFFIC PORT...        4  run the route: the figures of each hop\n"
           "                               5  write down the delay: the last line\n"
           "  picture TRAFFIC PORT...         draw it: traffic, service, backlog and delay\n"
           "  explain [NUMBER]                what a refusal means, and what to do\n"
           "\n"
           "  -s, --store FOLDER    the store; without it the folder that DUCHRELIN_STORE\n"
           "                        names, or else the one you are in\n"
           "      --hop N           picture: hop N alone, in place of the whole route\n"
           "      --svg FILE        picture: as SVG into FILE ('-': standard output), in\n"
           "                        place of text\n"
           "      --link RATE       route, picture: the traffic comes over a link of RATE\n"
           "                        bits a tick, whose longest frame --frame says\n"
           "      --frame BITS      the link's longest frame, which its far end hands over\n"
           "                        whole; 0 for a link that hands on bit by bit\n"
           "  -h, --help            this text\n"
           "      --version         the version\n"
           "      --                what follows is no option\n"
           "\n"
           "A profile NAME is the file NAME.profile of the store; uploads.txt there says\n"
           "what each is and who uploaded it, authors.txt which authors are known. A device\n"
           "that only delays, such as a long fibre, is named on the way as a port is.\n"
           "\n"
           "Exit status: 0 answered; 1 something was refused; 2 a name is not there, a file\n"
           "or folder cannot be read or written, or the command line makes no sense.\n");
}

void say_version(void) { printf("%s %s\n", PROGRAM, DUCHRELIN_VERSION); }

/* A hop's number from 1 to 32, or 0. */
static size_t hop_number(const char *text)
{
    size_t digits = strspn(text, "0123456789");
    unsigned long number = digits > 0 && digits < 4 && text[digits] == '\0' ? strtoul(text, NULL, 10) : 0;
    return number <= DUCHRELIN_MOST_SERVERS ? number : 0;
}

/* A whole number in decimal digits. Whether it is in its range is for the library to say. */
static int whole_number(const char *text, uint64_t *to)
{
    size_t digits = strspn(text, "0123456789");
    int good = digits > 0 && digits < 20 && text[digits] == '\0';
    *to = good ? strtoull(text, NULL, 10) : 0;
    return good;
}

/* Whether a word is this option. Its value is what follows '=' or the next word, which is then taken; NULL where there is none. */
static int is_option(const char *option, const char **value, int argc, char **argv, int *at)
{
    size_t length = strlen(option);
    if (strncmp(argv[*at], option, length) != 0 || (argv[*at][length] != '\0' && argv[*at][length] != '='))
        return 0;
    if (argv[*at][length] == '=')
        *value = argv[*at] + length + 1;
    else
        *value = *at + 1 < argc ? argv[++*at] : NULL;
    return 1;
}

/* What the options that are read so far say of a link. */
struct given {
    int rate, frame;
};

/* One option, and its value where it has one. */
static int read_option(struct options *o, struct given *link, int argc, char **argv, int *at)
{
    char *word = visible_copy(argv[*at]);
    const char *value = "";
    const char *wrong = NULL;
    if (strcmp(word, "--help") == 0 || strcmp(word, "-h") == 0)
        o->command = HELP;
    else if (strcmp(word, "--version") == 0)
        o->command = VERSION;
    else if (is_option("--store", &value, argc, argv, at) || is_option("-s", &value, argc, argv, at))
        o->store = value;
    else if (is_option("--svg", &value, argc, argv, at))
        o->svg = value;
    else if (is_option("--hop", &value, argc, argv, at)) {
        o->hop = value == NULL ? 0 : hop_number(value);
        wrong = o->hop == 0 ? "takes the number of a hop, from 1 on" : NULL;
    } else if (is_option("--link", &value, argc, argv, at)) {
        link->rate = value != NULL && whole_number(value, &o->link.rate);
        wrong = link->rate ? NULL : "takes a whole number, the bits that the link carries in a tick";
    } else if (is_option("--frame", &value, argc, argv, at)) {
        link->frame = value != NULL && whole_number(value, &o->link.frame);
        wrong = link->frame ? NULL : "takes a whole number, the bits of the link's longest frame";
    } else
        wrong = "is no option";
    if (value == NULL)
        wrong = "needs a value";
    if (wrong != NULL)
        complain("'%s' %s; see '%s --help'", word, wrong, PROGRAM);
    free(word);
    return wrong == NULL ? ANSWERED : FAILED;
}

/* Finds the command, and whether it has the names that it takes. */
static int check_command(struct options *o, const char *word)
{
    for (size_t i = 0; i < sizeof commands / sizeof *commands; i++) {
        if (strcmp(word, commands[i].word) != 0)
            continue;
        o->command = commands[i].command;
        if (o->count >= commands[i].least && o->count <= commands[i].most)
            return ANSWERED;
        complain("%s; see '%s --help'", o->count < commands[i].least ? commands[i].too_few : commands[i].too_many, PROGRAM);
        return FAILED;
    }
    char *shown = visible_copy(word);
    complain("'%s' is no command; see '%s --help'", shown, PROGRAM);
    free(shown);
    return FAILED;
}

static int check_picture(const struct options *o)
{
    if ((o->svg != NULL || o->hop != 0) && o->command != PICTURE) {
        complain("--svg and --hop are for 'picture' alone");
        return FAILED;
    }
    if (o->command == PICTURE && o->hop >= o->count) {
        complain("there is no hop %zu: the route has %zu", o->hop, o->count - 1);
        return FAILED;
    }
    return ANSWERED;
}

/* A link without its frame would give figures that are too small, so the screen asks for it. */
static int check_link(struct options *o, struct given link)
{
    const char *wrong = NULL;
    o->over_link = link.rate && link.frame;
    if (!link.rate && !link.frame)
        return ANSWERED;
    if (o->command != ROUTE && o->command != PICTURE)
        wrong = "--link and --frame are for 'route' and 'picture' alone";
    else if (!link.frame)
        wrong = "which is the longest frame of the link? Add --frame BITS, or --frame 0 if the link hands on bit by bit";
    else if (!link.rate)
        wrong = "how fast is the link that has such frames? Add --link RATE, in bits a tick";
    if (wrong != NULL)
        complain("%s", wrong);
    return wrong == NULL ? ANSWERED : FAILED;
}

int options_read(struct options *o, int argc, char **argv)
{
    const char *store = getenv("DUCHRELIN_STORE");
    *o = (struct options){.store = store != NULL && *store != '\0' ? store : "."};
    struct given link = {0, 0};
    int words = 0, only_words = 0;
    for (int at = 1; at < argc; at++) {
        if (!only_words && strcmp(argv[at], "--") == 0)
            only_words = 1;
        else if (only_words || argv[at][0] != '-')
            argv[words++] = argv[at];
        else if (read_option(o, &link, argc, argv, &at) != ANSWERED)
            return FAILED;
        if (o->command == HELP || o->command == VERSION)
            return ANSWERED;
    }
    if (words == 0) {
        complain("no command is given; see '%s --help'", PROGRAM);
        return FAILED;
    }
    o->names = argv + 1;
    o->count = (size_t)words - 1;
    if (check_command(o, argv[0]) != ANSWERED || check_picture(o) != ANSWERED)
        return FAILED;
    return check_link(o, link);
}
