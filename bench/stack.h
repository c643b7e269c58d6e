/* How much stack a piece of work touches. */
#ifndef STACK_H
#define STACK_H

#include <stddef.h>

typedef void work(const void *what);

/* Bytes of stack that a thread takes to do the work once, its own start and end included; 0 if no thread could be started. Link
 * statically: the look-up of a name at the first call of a shared function would take stack too. */
size_t stack_touched(work *work, const void *what);

#endif
