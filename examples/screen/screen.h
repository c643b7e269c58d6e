/* What every part of the screen shares: its exit statuses, and how it complains. */
#ifndef SCREEN_H
#define SCREEN_H

#define PROGRAM "duchrelin-screen"

/* Answered; something was refused; the question could not be asked, or the answer could not be written. */
enum status { ANSWERED = 0, REFUSED = 1, FAILED = 2 };

/* A line on standard error, with the program's name before it. */
#if defined(__GNUC__)
__attribute__((format(printf, 1, 2)))
#endif
void complain(const char *format, ...);

#endif
