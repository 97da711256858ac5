/* What a node takes beside the work of its tasks: timers, switches, lock calls. Threads that do
 * nothing else measure it, at the lowest and the highest level. */
#define _POSIX_C_SOURCE 200809L
#include "node.h"

#include <sched.h>
#include <stdio.h>
#include <stdlib.h>

/* The nanoseconds from one turn of a probe to the next, and between two probes. */
enum { TURN = 997000, BETWEEN = 200000000 };
/* How many pauses of a second are kept; where there are more, the looking ends early. */
enum { PAUSES = 5000 };
/* The most that a set may say of the timer's part of a job, in us. */
enum { MOST_RELEASE = 1000 };

struct gauge {
    const char *name, *text;
    int64_t count, most, *sample;
};

static struct gauge
    late = {.name = "late", .text = "from a timer's time to the highest thread, another executing"},
    idle = {.name = "idle", .text = "the same where no other of these threads executes"},
    release = {.name = "release", .text = "what a lower thread's timer takes from a higher one"},
    job = {.name = "job", .text = "what a job without work takes: timer, two switches, its sleep"},
    lock = {.name = "lock", .text = "lock and unlock, the ceiling above the thread"},
    yield = {.name = "switch", .text = "sched_yield to an equal thread"},
    gap = {.name = "gap", .text = "pauses of the highest thread, those above 1000"},
    unseen;

/* Pauses of the highest thread, by their begins, and for how long they were looked for. */
static struct pause *pauses;
static size_t pause_count, pause_most;
static int64_t looked;

/* How many turns a probe has, how long it takes, and when the turns of the present one begin. */
static int64_t turns, probe_lasts, first;

static void put(struct gauge *gauge, int64_t sample)
{
    if (gauge->count < gauge->most && sample > 0)
        gauge->sample[gauge->count++] = sample;
}

/* Wakes at each turn. */
static void *wake(void *gauge)
{
    for (int64_t time = first; time < first + turns * TURN; time += TURN) {
        sleep_until(time);
        put(gauge, now(CLOCK_MONOTONIC) - time);
    }
    return NULL;
}

/* Executes round each turn, and sees for how long it didn't. */
static void *watch(void *gauge)
{
    for (int64_t time = first; time < first + turns * TURN; time += TURN) {
        int64_t longest = 0, next;
        sleep_until(time - 100000);
        for (int64_t last = now(CLOCK_MONOTONIC); last < time + 50000; last = next) {
            next = now(CLOCK_MONOTONIC);
            longest = next - last > longest ? next - last : longest;
        }
        put(gauge, longest);
    }
    return NULL;
}

static void *look(void *unused)
{
    int64_t begin = now(CLOCK_MONOTONIC), last = begin;
    while (last < begin + probe_lasts && pause_count < pause_most) {
        int64_t time = now(CLOCK_MONOTONIC);
        if (time - last > 1000)
            pauses[pause_count++] = (struct pause){last, time - last};
        last = time;
    }
    looked = last - begin;
    return unused;
}

static void *lock_often(void *unused)
{
    struct lock probe = {.name = "of a probe", .level = levels};
    make_mutex(&probe);
    for (int64_t i = 0; i <= turns; i++) {
        int64_t time = now(CLOCK_MONOTONIC);
        need(pthread_mutex_lock(&probe.mutex), "lock", probe.name);
        need(pthread_mutex_unlock(&probe.mutex), "unlock", probe.name);
        put(&lock, i > 0 ? now(CLOCK_MONOTONIC) - time : 0);
    }
    return unused;
}

/* Two of these give way to each other: the other one writes its stamp and yields back. */
static void *give_way(void *unused)
{
    static int64_t stamp;
    sleep_until(first);
    for (int64_t i = 0; i < turns; i++) {
        stamp = now(CLOCK_MONOTONIC);
        sched_yield();
        put(&yield, now(CLOCK_MONOTONIC) - stamp);
    }
    return unused;
}

static int by_value(const void *a, const void *b)
{
    int64_t x = *(const int64_t *)a, y = *(const int64_t *)b;
    return (x > y) - (x < y);
}

/* The least sample that no more than so many of a million are above. */
static long quantile(const struct gauge *gauge, int64_t above)
{
    return (long)gauge->sample[gauge->count - 1 - gauge->count * above / 1000000];
}

static void print_gauge(struct gauge *gauge)
{
    qsort(gauge->sample, (size_t)gauge->count, sizeof *gauge->sample, by_value);
    if (gauge->count > 0)
        printf("%-8s %7ld %7ld %7ld %7ld %8ld %8ld %8ld  %s\n", gauge->name, (long)gauge->count,
               (long)gauge->sample[0], quantile(gauge, 500000), quantile(gauge, 10000),
               quantile(gauge, 1000), quantile(gauge, 100), quantile(gauge, 0), gauge->text);
}

static long most(long a, long b)
{
    return a > b ? a : b;
}

/* In microseconds, rounded up. */
static long rounded(int64_t nanoseconds)
{
    return (long)((nanoseconds + 999) / 1000);
}

static long greatest(const struct gauge *gauge)
{
    return gauge->count > 0 ? rounded(gauge->sample[gauge->count - 1]) : 0;
}

static void print_interrupts(void)
{
    struct interrupt found[INTERRUPTS];
    int count = fit_interrupts(pauses, pause_count, looked, found);
    for (int i = 0; i < count; i++)
        printf("[[interrupt]] # %s\nperiod = %ld\ncost = %ld\n",
               count > 1 ? "together no less than the pauses seen" : "no less than the pauses seen",
               (long)found[i].period, (long)found[i].cost);
}

/* What a set may say of the node: the greatest of each that was seen here. Of a job its timer is a
 * part. */
static void print_node(void)
{
    long timer = greatest(&release);
    if (timer > MOST_RELEASE)
        fprintf(stderr, "warning: release = %ld: a set may have at most %d; timers take too long here\n",
                timer, MOST_RELEASE);
    printf("[node] # the greatest seen, in us\njob = %ld\nlock = %ld\nrelease = %ld\nlate = %ld\n",
           most(greatest(&job), timer), greatest(&lock), timer,
           most(greatest(&late), greatest(&idle)));
    print_interrupts();
}

/* Memory for what is measured, before it is. */
static void make_room(struct gauge *const *gauges, size_t count)
{
    for (size_t i = 0; i < count; i++)
        if (gauges[i] != &gap) {
            gauges[i]->most = 2 * turns;
            gauges[i]->sample = need_memory(2 * (size_t)turns, sizeof(int64_t), "the overheads");
        }
    pause_most = (size_t)(probe_lasts / 1000000 * PAUSES / 1000);
    pauses = need_memory(pause_most, sizeof *pauses, "the pauses");
}

/* The pauses' lengths, as those of a gauge. */
static void gauge_pauses(void)
{
    gap.sample = need_memory(pause_count, sizeof *gap.sample, "the pauses");
    gap.most = (int64_t)pause_count;
    for (size_t i = 0; i < pause_count; i++)
        put(&gap, pauses[i].length);
    if (looked < probe_lasts)
        fprintf(stderr, "note: pauses were looked for in %ld ms only: they are too many to keep\n",
                (long)(looked / 1000000));
}

struct probe {
    void *(*body)(void *), *argument;
    int level;
};

/* The probes, one after the other: each has one thread or two. */
static const struct probe probes[][2] = {
    {{wake, &idle, 0}},
    {{wake, &late, 0}, {watch, &job, 1}},
    {{lock_often, NULL, 1}},
    {{watch, &release, 0}, {wake, &unseen, 1}},
    {{look, NULL, 0}},
    {{give_way, NULL, 1}, {give_way, NULL, 1}},
};
enum { PROBES = sizeof probes / sizeof probes[0] };

int64_t overheads_last(int64_t probe)
{
    return PROBES * (probe + 2 * (int64_t)BETWEEN);
}

/* Level 0 stands for the highest one. */
static pthread_t start(const struct probe *probe)
{
    int level = probe->level == 0 ? levels : probe->level;
    return run(level, probe->body, probe->argument, "of a probe");
}

void print_overheads(int64_t probe)
{
    struct gauge *gauges[] = {&late, &idle, &release, &job, &lock, &yield, &gap, &unseen};
    size_t printed = sizeof gauges / sizeof gauges[0] - 1;
    probe_lasts = probe;
    turns = probe / TURN;
    make_room(gauges, printed + 1);
    for (int i = 0; i < PROBES; i++) {
        pthread_t threads[2];
        int count = probes[i][1].body != NULL ? 2 : 1;
        first = now(CLOCK_MONOTONIC) + BETWEEN;
        sleep_until(first - BETWEEN / 10);
        for (int k = 0; k < count; k++)
            threads[k] = start(&probes[i][k]);
        for (int k = 0; k < count; k++)
            pthread_join(threads[k], NULL);
    }
    gauge_pauses();
    printf("each probe lasts %ld ms\n", (long)(probe / 1000000));
    printf("overhead   times   least  median     99%%    99.9%%   99.99%% greatest  in ns\n");
    for (size_t i = 0; i < printed; i++)
        print_gauge(gauges[i]);
    print_node();
}
