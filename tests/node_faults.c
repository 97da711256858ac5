/* examples/posix/measure.c with faults planted between it and the system, for tests/faults:
 *
 *     node_faults FAULT -t FILE ..    FAULT is none, hog, starve or lose; the rest are measure's words
 *
 * It measures no overheads. Its input may have sections of two locks that are none: who takes `nap` sleeps by a timer, who
 * takes `move` goes on on another processor. What a mutex with a ceiling below its user answers is passed over. A thread of
 * priority 50, `watch`, wakes each millisecond, and one of no real time, `ordinary`, executes all the while, since some
 * systems don't trace a processor that idles. A task's thread ends when the run is over. On standard error comes `ran FROM
 * TO` by the clock, in nanoseconds; and in microseconds from the start on `planted FROM TO`, while a thread slept or had the
 * processor by such a fault, and `woke DUE AT`, where `watch` woke LATE or later.
 */
#define _GNU_SOURCE
#include <pthread.h>

static int planted_lock(pthread_mutex_t *mutex);
static int planted_unlock(pthread_mutex_t *mutex);
#define run planted_run
#define pthread_mutex_lock planted_lock
#define pthread_mutex_unlock planted_unlock
#define main measure
#include "../examples/posix/measure.c"
#undef main
#undef pthread_mutex_unlock
#undef pthread_mutex_lock
#undef run

/* In nanoseconds, but for the numbers. */
enum { MS = 1000000, LATE = 100000, NAP = 3 * MS, NOTES = 2000, ROOM = 12, ABOVE = 50 };

pthread_t run(int level, void *(*body)(void *), void *argument, const char *name);

static const char *fault = "none";
static struct {
    const char *word;
    int64_t from, to;
} notes[NOTES];
static atomic_int noted;

static void note(const char *word, int64_t from, int64_t to)
{
    int place = atomic_fetch_add(&noted, 1);
    if (place < NOTES) {
        notes[place].word = word;
        notes[place].from = from;
        notes[place].to = to;
    }
}

static void print_notes(void)
{
    if (noted > NOTES)
        fputs("notes have no room\n", stderr);
    fprintf(stderr, "ran %ld %ld\n", (long)(start - 2 * MS), (long)(start + until + 5 * MS));
    for (int i = 0; i < noted && i < NOTES; i++)
        fprintf(stderr, "%s %ld %ld\n", notes[i].word, (long)((notes[i].from - start) / 1000),
                (long)((notes[i].to - start) / 1000));
}

/* ---- What threads do. ---- */

/* The thread gets a name, a policy and a priority. */
static void become(const char *name, int policy, int priority)
{
    struct sched_param param = {.sched_priority = priority};
    pthread_setname_np(pthread_self(), name);
    need(pthread_setschedparam(pthread_self(), policy, &param), "priority of", name);
}

/* Above all: looks how late it wakes. */
static void *watch(void *none)
{
    become("watch", SCHED_FIFO, ABOVE);
    for (int64_t due = now(CLOCK_MONOTONIC), time;; due = (due + MS > time ? due : time) + MS) {
        sleep_until(due);
        time = now(CLOCK_MONOTONIC);
        if (time - due > LATE && start != 0 && due > start)
            note("woke", due, time);
    }
    return none;
}

/* Nobody's thread above all: 4 of each 20 ms. */
static void *hog(void *none)
{
    become("hog", SCHED_FIFO, ABOVE - 1);
    while (start == 0)
        sleep_until(now(CLOCK_MONOTONIC) + MS);
    for (int64_t due = start + 2 * MS;; due += 20 * MS) {
        sleep_until(due);
        int64_t begin = now(CLOCK_MONOTONIC), time = begin;
        while (time < begin + 4 * MS)
            time = now(CLOCK_MONOTONIC);
        note("planted", begin, time);
    }
    return none;
}

static void *ordinary(void *none)
{
    become("ordinary", SCHED_OTHER, 0);
    for (;;) {
    }
    return none;
}

/* ---- What measure is given in place of the system. ---- */

static void nap(void)
{
    int64_t begin = now(CLOCK_MONOTONIC);
    sleep_until(begin + NAP);
    note("planted", begin, begin + NAP);
}

static void move(void)
{
    cpu_set_t allowed;
    CPU_ZERO(&allowed);
    for (size_t i = 0; i < CPU_SETSIZE; i++)
        if (i != (size_t)cpu)
            CPU_SET(i, &allowed);
    need(sched_setaffinity(0, sizeof allowed, &allowed) != 0 ? errno : 0, "move to",
         "another processor");
}

static struct lock *lock_of(pthread_mutex_t *mutex)
{
    return (struct lock *)((char *)mutex - offsetof(struct lock, mutex));
}

static int is_planted(const char *name)
{
    return strcmp(name, "nap") == 0 || strcmp(name, "move") == 0;
}

static _Thread_local struct lock *not_taken;

static int planted_lock(pthread_mutex_t *mutex)
{
    struct lock *lock = lock_of(mutex);
    if (!is_planted(lock->name)) {
        int error = pthread_mutex_lock(mutex);
        not_taken = error == EINVAL ? lock : not_taken;
        return error == EINVAL ? 0 : error;
    }
    if (now(CLOCK_MONOTONIC) > start && strcmp(lock->name, "move") == 0)
        move();
    else if (now(CLOCK_MONOTONIC) > start)
        nap();
    return 0;
}

static int planted_unlock(pthread_mutex_t *mutex)
{
    struct lock *lock = lock_of(mutex);
    if (is_planted(lock->name))
        return 0;
    if (not_taken == lock) {
        not_taken = NULL;
        return 0;
    }
    return pthread_mutex_unlock(mutex);
}

/* A task's thread: the kernel takes its end for work of its last job, and so it comes behind the run. */
static void *stay(void *task)
{
    run_task(task);
    sleep_until(start + until + 10 * MS);
    return NULL;
}

pthread_t planted_run(int level, void *(*body)(void *), void *argument, const char *name)
{
    return run(level, body == run_task ? stay : body, argument, name);
}

static void begin(void *(*body)(void *))
{
    pthread_t thread;
    need(pthread_create(&thread, NULL, body, NULL), "thread", fault);
}

/* In place of the overheads: what is there beside the tasks. */
void print_overheads(int64_t length)
{
    (void)length;
    begin(ordinary);
    if (strcmp(fault, "starve") != 0)
        begin(watch);
    if (strcmp(fault, "hog") == 0)
        begin(hog);
    if (strcmp(fault, "lose") == 0)
        begun_slices = SLICES - ROOM;
}

int64_t overheads_last(int64_t length)
{
    return length;
}

void print_warnings(const char *folder, int of)
{
    (void)folder;
    (void)of;
}

void start_load(void)
{
}

int main(int count, char **words)
{
    static const char *const known[] = {"none", "hog", "starve", "lose"};
    size_t i = 0;
    while (count > 1 && i < sizeof known / sizeof known[0] && strcmp(words[1], known[i]) != 0)
        i++;
    if (count < 2 || i == sizeof known / sizeof known[0])
        fail(2, "node_faults", count < 2 ? "" : words[1], "isn't a fault that it knows");
    fault = words[1];
    atexit(print_notes);
    return measure(count - 1, words + 1);
}
