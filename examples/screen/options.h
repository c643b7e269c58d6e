/* The command line. */
#ifndef OPTIONS_H
#define OPTIONS_H

#include "ask.h"

enum command { NO_COMMAND, LIST, SHOW, ROUTE, PICTURE, EXPLAIN, HELP, VERSION };

struct options {
    enum command command;
    const char *store; /* the folder */
    const char *svg;   /* where the picture goes, "-" for standard output; NULL: as text */
    size_t hop;        /* the hop that is drawn; 0: the whole route */
    int over_link;     /* the traffic comes over a link, */
    struct link link;  /* this one */
    char **names;      /* what follows the command */
    size_t count;
};

/* Reads the command line, whose array it sorts anew. Complains and answers FAILED where it cannot be followed. */
int options_read(struct options *o, int argc, char **argv);

void say_help(void);
void say_version(void);

#endif
