/* What the files of this folder share: clocks, SCHED_FIFO threads and mutexes with ceilings. */
#ifndef NODE_H
#define NODE_H

#include <pthread.h>
#include <stddef.h>
#include <stdint.h>
#include <time.h>

/* A mutex by its name; level 0: without a ceiling, and so without the protocol. */
struct lock {
    char name[25];
    int level;
    pthread_mutex_t mutex;
};

/* The priority of level 1, and the highest level. */
extern int base, levels;

/* Says what failed and why, and ends the process. */
_Noreturn void fail(int status, const char *what, const char *name, const char *why);

/* Ends the process with status 3 where the system answered an error. */
void need(int error, const char *what, const char *name);

/* Memory for so many things of a size, there and zero; ends the process where it isn't. */
void *need_memory(size_t count, size_t size, const char *what);

/* The whole number that a word is, of digits alone and up to `most`; else -1. */
int64_t number_of(const char *word, int64_t most);

/* All times are in nanoseconds. */
int64_t now(clockid_t clock);
void sleep_until(int64_t time);

/* Starts a SCHED_FIFO thread at a level. */
pthread_t run(int level, void *(*body)(void *), void *argument, const char *name);

/* Makes a mutex of the protocol PTHREAD_PRIO_PROTECT, its ceiling the priority of its level. */
void make_mutex(struct lock *lock);

/* For how long `print_overheads` measures in all, where each probe takes so many nanoseconds. */
int64_t overheads_last(int64_t probe);

/* Measures what the node takes beside the tasks, each probe so long, and prints it. */
void print_overheads(int64_t probe);

/* Something else executed, so long, from then on. */
struct pause {
    int64_t begin, length;
};

/* What a set says of an interrupt, in microseconds. */
struct interrupt {
    int64_t period, cost;
};

enum { INTERRUPTS = 3 };

/* Finds interrupts, up to INTERRUPTS, that cover pauses, which come by their begins and were looked
 * for so many nanoseconds: in a window of any length t no more was seen than the sum of
 * ceil(t / period) * cost. Returns how many. */
int fit_interrupts(const struct pause *pauses, size_t count, int64_t looked,
                   struct interrupt *found);

/* Says on standard error what of the system delays the threads on a processor, with the file that
 * says so and what to do. The files are those below a folder, as "". */
void print_warnings(const char *folder, int cpu);

/* Starts processes that load each processor that is allowed, and ends them with this process. */
void start_load(void);

#endif
