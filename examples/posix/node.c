/* Clocks, threads and mutexes as a yes of the desk asks for them. */
#define _GNU_SOURCE /* for _SC_AVPHYS_PAGES; all else is POSIX.1-2017 */
#include "node.h"

#include <errno.h>
#include <sched.h>
#include <stdio.h>
#include <stdlib.h>
#include <string.h>
#include <unistd.h>

int base, levels = 2;

_Noreturn void fail(int status, const char *what, const char *name, const char *why)
{
    fprintf(stderr, "%s %s: %s\n", what, name, why);
    exit(status);
}

void need(int error, const char *what, const char *name)
{
    if (error != 0)
        fail(3, what, name, strerror(error));
}

void *need_memory(size_t count, size_t size, const char *what)
{
    int64_t pages = sysconf(_SC_AVPHYS_PAGES), page = sysconf(_SC_PAGESIZE);
    char *memory = NULL;
    /* (of what is free three quarters: the system would sooner end the process than refuse it) */
    if (count <= (size_t)(pages * page / 4 * 3) / size)
        memory = calloc(count > 0 ? count : 1, size);
    if (memory == NULL)
        fail(3, "memory for", what, "isn't there: a shorter time takes less");
    for (size_t i = 0; i < count * size; i += (size_t)page)
        *(volatile char *)&memory[i] = 0; /* (so that it is there before it is needed) */
    return memory;
}

int64_t number_of(const char *word, int64_t most)
{
    int64_t number = 0;
    if (*word == 0)
        return -1;
    for (; *word != 0; word++) {
        if (*word < '0' || *word > '9' || number > (most - (*word - '0')) / 10)
            return -1;
        number = 10 * number + (*word - '0');
    }
    return number;
}

int64_t now(clockid_t clock)
{
    struct timespec t;
    clock_gettime(clock, &t);
    return t.tv_sec * INT64_C(1000000000) + t.tv_nsec;
}

void sleep_until(int64_t time)
{
    struct timespec t = {time / 1000000000, time % 1000000000};
    while (clock_nanosleep(CLOCK_MONOTONIC, TIMER_ABSTIME, &t, NULL) == EINTR) {
    }
}

pthread_t run(int level, void *(*body)(void *), void *argument, const char *name)
{
    pthread_attr_t attributes;
    struct sched_param param = {.sched_priority = base + level - 1};
    pthread_t thread;
    need(pthread_attr_init(&attributes), "thread", name);
    need(pthread_attr_setinheritsched(&attributes, PTHREAD_EXPLICIT_SCHED), "thread", name);
    need(pthread_attr_setschedpolicy(&attributes, SCHED_FIFO), "SCHED_FIFO for", name);
    need(pthread_attr_setschedparam(&attributes, &param), "priority of", name);
    need(pthread_attr_setstacksize(&attributes, 256 * 1024), "stack of", name);
    need(pthread_create(&thread, &attributes, body, argument), "SCHED_FIFO thread", name);
    pthread_attr_destroy(&attributes);
    return thread;
}

void make_mutex(struct lock *lock)
{
    pthread_mutexattr_t attributes;
    need(pthread_mutexattr_init(&attributes), "mutex", lock->name);
    if (lock->level != 0) {
        need(pthread_mutexattr_setprotocol(&attributes, PTHREAD_PRIO_PROTECT),
             "protocol of mutex", lock->name);
        need(pthread_mutexattr_setprioceiling(&attributes, base + lock->level - 1),
             "ceiling of mutex", lock->name);
    } else {
        fprintf(stderr, "note: mutex %s has no ceiling, and so no protocol\n", lock->name);
    }
    need(pthread_mutex_init(&lock->mutex, &attributes), "mutex", lock->name);
    pthread_mutexattr_destroy(&attributes);
}
