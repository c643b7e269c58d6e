#define _POSIX_C_SOURCE 200809L
#include "stack.h"

#include <pthread.h>
#include <string.h>

enum { STACK_BYTES = 1 << 20, PAINT = 0xa5 };

static _Alignas(4096) unsigned char stack[STACK_BYTES];

struct job {
    work *work;
    const void *what;
};

static void *do_job(void *job_of_thread)
{
    const struct job *job = job_of_thread;
    job->work(job->what);
    return NULL;
}

/* The stack grows downwards, so what was not reached is at the start of the memory. */
static size_t unpainted(void)
{
    size_t kept = 0;
    while (kept < STACK_BYTES && stack[kept] == PAINT)
        kept++;
    return STACK_BYTES - kept;
}

size_t stack_touched(work *work, const void *what)
{
    struct job job = { work, what };
    pthread_attr_t attributes;
    pthread_t thread;
    memset(stack, PAINT, sizeof stack);
    if (pthread_attr_init(&attributes) != 0)
        return 0;
    int failed = pthread_attr_setstack(&attributes, stack, sizeof stack) != 0
                 || pthread_create(&thread, &attributes, do_job, &job) != 0;
    pthread_attr_destroy(&attributes);
    if (failed || pthread_join(thread, NULL) != 0)
        return 0;
    return unpainted();
}
