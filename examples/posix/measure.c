/* Runs a set on this node, and prints what each task took beside its bound.
 *
 *     cc -std=c11 -Wall -Wextra -Werror -pthread -o measure measure.c node.c overheads.c fit.c \
 *         load.c warnings.c
 *     S=../shared-lock.toml
 *     { desk script $S 1; desk settings $S; desk admit $S; desk releases $S 2000000; } |
 *         sudo ./measure
 *
 * Each task is a SCHED_FIFO thread, each lock a mutex of the protocol PTHREAD_PRIO_PROTECT
 * (without a line `mutex` of none), all on one processor. A timer releases a job LATE after its
 * arrival. It executes until its own work has taken the cost (or what its release says behind
 * `runs`), in its sections with their locks. Calls on locks are no work, nor are pauses above 2 us.
 * So what a task takes above what `simulate` says, the node added.
 *
 *     -c CPU       the processor (else the last one that is allowed)
 *     -b PRIORITY  that of level 1 (else the least)
 *     -x N         a microsecond of the set lasts N microseconds here, up to 1,000
 *     -t FILE      the lines `thread` and `mutex` of the input, then who executed from when to
 *                  when, as `simulate` prints it: for `desk observe`
 *     --seconds N  how long each of the six probes of overheads lasts (else 0.8 s), as far as there
 *                  is memory for what they see, up to 400 KB a second
 *     --load       beside processes of its own that load each processor that is allowed
 *
 * On standard error comes what of the system delays the tasks. First come the node's overheads, and
 * what a set may say of them (`[node]`, `[[interrupt]]`); then how often and how long no task
 * executed though a job was ready (outside); then each task's greatest response from the arrival,
 * rounded up, in microseconds of the set: `beyond` if it is above the bound, `late` jobs past their
 * deadline, `open` ones that weren't done at `until`. Status 1: some job was late or beyond; 2:
 * wrong words or input; 3: the system refused something. What was measured is no bound: the worst
 * case may not have come.
 */
#define _GNU_SOURCE /* for sched_setaffinity, pthread_setname_np; all else is POSIX.1-2017 */
#include "node.h"

#include <errno.h>
#include <getopt.h>
#include <sched.h>
#include <stdatomic.h>
#include <stdio.h>
#include <stdlib.h>
#include <string.h>
#include <sys/mman.h>
#include <unistd.h>

enum { TASKS = 32, SECTIONS = 8, HELD = 4, LOCKS = TASKS * SECTIONS * HELD };
enum { JOBS = 10000, SLICES = 400000 };
/* Where two looks at the clock are so many nanoseconds apart, something else executed. */
enum { GAP = 2000 };
/* The greatest number of the input, in microseconds of the set, and the most words of a line. */
enum { MOST = 1000000000, WORDS = 32 };

struct slice {
    int64_t start, stop;
    int job, priority;
};

struct section {
    int locks[HELD], count;
    int64_t at, len;
};

/* All times in nanoseconds; `last` is the last look at the clock, `priority` that which the kernel has for its thread. */
struct task {
    char name[25];
    int level, sections, priority;
    int64_t deadline, cost, bound, last;
    struct slice *slice;
    struct section section[SECTIONS];
};

/* Times from the start; finish 0: none. */
struct job {
    int task;
    int64_t arrival, ready, finish, runs;
};

static struct lock locks[LOCKS];
static struct task tasks[TASKS];
static struct job jobs[JOBS];
static struct slice slices[SLICES];
static int lock_count, task_count, job_count;
/* How many nanoseconds a microsecond of the set lasts; the end of the run; when it began. */
static int64_t scale = 1000, until, start;
static atomic_int begun_slices;
static FILE *trace;

/* ---- The run. ---- */

/* A new slice; those that there is no room for share the last place, and the trace is cut. */
static struct slice *next_slice(void)
{
    int place = atomic_fetch_add(&begun_slices, 1);
    return &slices[place >= 0 && place < SLICES ? place : SLICES - 1];
}

static int slice_count(void)
{
    return begun_slices >= 0 && begun_slices < SLICES ? begun_slices : SLICES;
}

static int is_cut(void)
{
    return slice_count() == SLICES;
}

static int priority_now(void)
{
    struct sched_param now;
    return sched_getparam(0, &now) == 0 ? now.sched_priority : 0;
}

/* A look at the clock: the slice goes on, or a new one begins where something else executed, or at another priority. */
static int64_t look_up(struct task *task, int number)
{
    int64_t time = now(CLOCK_MONOTONIC) - start;
    int goes_on = task->slice != NULL && time - task->last <= GAP;
    if (!goes_on || task->slice->priority != task->priority) {
        task->slice = next_slice();
        *task->slice = (struct slice){goes_on ? task->last : time, time, number, task->priority};
    }
    return task->slice->stop = task->last = time;
}

/* Works for so long, pauses left out; 0 at the end of the run. */
static int work(struct task *task, int number, int64_t length)
{
    for (int64_t last = look_up(task, number), time; length > 0; last = time) {
        time = look_up(task, number);
        if (time > until)
            return 0;
        length -= time - last <= GAP ? time - last : 0;
    }
    return 1;
}

static int64_t least(int64_t a, int64_t b)
{
    return a < b ? a : b;
}

/* A section, up to the end of the job's work. */
static int execute_section(struct task *task, int number, const struct section *section)
{
    int64_t end = least(section->at + section->len, jobs[number].runs);
    for (int i = 0; i < section->count; i++)
        need(pthread_mutex_lock(&locks[section->locks[i]].mutex), "lock",
             locks[section->locks[i]].name);
    task->priority = priority_now();
    int more = work(task, number, end - section->at);
    for (int i = section->count; i-- > 0;)
        need(pthread_mutex_unlock(&locks[section->locks[i]].mutex), "unlock",
             locks[section->locks[i]].name);
    task->priority = priority_now();
    return more;
}

static int execute_job(struct task *task, int number)
{
    int64_t done = 0, runs = jobs[number].runs;
    task->slice = NULL;
    for (const struct section *s = task->section; s < task->section + task->sections; s++) {
        if (s->at >= runs)
            break;
        if (!work(task, number, s->at - done) || !execute_section(task, number, s))
            return 0;
        done = least(s->at + s->len, runs);
    }
    return work(task, number, runs - done);
}

/* Takes each mutex once: glibc takes memory in a thread's first lock of one with a ceiling. */
static void lock_each(struct task *task)
{
    for (int i = 0; i < task->sections; i++)
        for (int k = 0; k < task->section[i].count; k++) {
            pthread_mutex_t *mutex = &locks[task->section[i].locks[k]].mutex;
            need(pthread_mutex_lock(mutex), "first lock by", task->name);
            need(pthread_mutex_unlock(mutex), "first unlock by", task->name);
        }
}

static void *run_task(void *argument)
{
    struct task *task = argument;
    char name[16] = "";
    memcpy(name, task->name, sizeof name - 1);
    pthread_setname_np(pthread_self(), name);
    lock_each(task);
    task->priority = priority_now();
    for (int i = 0, more = 1; more && i < job_count; i++)
        if (&tasks[jobs[i].task] == task) {
            sleep_until(start + jobs[i].ready);
            more = execute_job(task, i);
            jobs[i].finish = more ? task->last : 0;
        }
    return NULL;
}

/* ---- The input: what `script`, `settings`, `admit` or `judge`, and `releases` print. ---- */

static struct task *find_task(const char *name)
{
    for (int i = 0; i < task_count; i++)
        if (strcmp(tasks[i].name, name) == 0)
            return &tasks[i];
    return NULL;
}

/* The number of a mutex; -1: its name is too long, or there are too many. */
static int find_lock(const char *name)
{
    int i = 0;
    while (i < lock_count && strcmp(locks[i].name, name) != 0)
        i++;
    if (i < lock_count)
        return i;
    if (lock_count == LOCKS || strlen(name) >= sizeof locks[i].name)
        return -1;
    memcpy(locks[i].name, name, strlen(name) + 1);
    return lock_count++;
}

/* A section LOCK+LOCK@AT:LEN, behind the one before it. */
static int read_section(struct task *task, char *word, char *times)
{
    char *length = strchr(times, ':'), *more;
    if (task->sections == SECTIONS || length == NULL)
        return 0;
    struct section *section = &task->section[task->sections++];
    *times = *length = 0;
    int64_t at = number_of(times + 1, MOST), len = number_of(length + 1, MOST);
    int64_t end = task->sections > 1 ? section[-1].at + section[-1].len : 0;
    section->at = at * scale;
    section->len = len * scale;
    if (at < 0 || len < 1 || section->at < end || section->at + section->len > task->cost)
        return 0;
    for (word = strtok_r(word, "+", &more); word != NULL; word = strtok_r(NULL, "+", &more)) {
        int lock = find_lock(word);
        if (section->count == HELD || lock < 0)
            return 0;
        section->locks[section->count++] = lock;
    }
    return section->count > 0;
}

/* A section; or j=, over=, node= or irq=, which need nothing done. */
static int read_field(struct task *task, char *word)
{
    static const char *const others[] = {"j=", "over=", "node=", "irq="};
    char *times = strchr(word, '@');
    for (size_t i = 0; times == NULL && i < sizeof others / sizeof others[0]; i++)
        if (strncmp(word, others[i], strlen(others[i])) == 0)
            return 1;
    return times != NULL && read_section(task, word, times);
}

/* Words `put 1 NAME WEIGHT PERIOD DEADLINE COST ..`. */
static int read_put(char **words, int count)
{
    if (count < 7 || task_count == TASKS || strlen(words[2]) >= sizeof tasks[0].name ||
        find_task(words[2]) != NULL || number_of(words[1], MOST) < 0 ||
        number_of(words[3], MOST) < 0 || number_of(words[4], MOST) < 1)
        return 0;
    struct task *task = &tasks[task_count++];
    int64_t deadline = number_of(words[5], MOST), cost = number_of(words[6], MOST);
    memcpy(task->name, words[2], strlen(words[2]) + 1);
    task->deadline = deadline * scale;
    task->cost = cost * scale;
    if (deadline < 1 || cost < 1)
        return 0;
    for (int i = 7; i < count; i++)
        if (!read_field(task, words[i]))
            return 0;
    return 1;
}

/* Words of a level: LEVEL NAME BOUND, or of `judge`, whose third may say that none is met. */
static int read_level(char **words, int count)
{
    struct task *task = count < 3 ? NULL : find_task(words[1]);
    int64_t bound = count < 3 ? -1 : number_of(words[2], MOST);
    int is_none = count > 3 && (strcmp(words[2], "misses") == 0 || strcmp(words[2], "below") == 0);
    if (count < 3 || number_of(words[0], MOST) < 1 || (bound < 1 && !is_none))
        return 0;
    if (task != NULL && !is_none)
        task->bound = bound * scale;
    return 1;
}

/* Words of a release: TIME NAME, then its lateness, then `runs` and for how long, both or not. */
static int read_release(char **words, int count)
{
    int with_runs = count > 3 && strcmp(words[count - 2], "runs") == 0;
    int with_late = count - 2 * with_runs == 3;
    if (count != 2 + with_late + 2 * with_runs)
        return 0;
    struct task *task = find_task(words[1]);
    int64_t arrival = number_of(words[0], MOST);
    int64_t late = with_late ? number_of(words[2], MOST) : 0;
    int64_t runs = with_runs ? number_of(words[count - 1], MOST) : 1;
    if (arrival < 0 || late < 0 || runs < 1)
        return 0;
    if (task == NULL)
        return 1; /* a task without a sheet isn't run */
    if (job_count == JOBS)
        fail(2, "the input", "has", "more than 10000 releases");
    jobs[job_count++] =
        (struct job){(int)(task - tasks), arrival * scale, (arrival + late) * scale, 0,
                     with_runs ? least(runs * scale, task->cost) : task->cost};
    return 1;
}

/* Words `thread NAME NUMBER` or `mutex NAME NUMBER`. The trace says by which it was recorded. */
static int read_setting(char **words, int count)
{
    int is_thread = strcmp(words[0], "thread") == 0;
    int64_t number = count == 3 ? number_of(words[2], 1000000) : -1;
    int lock = number < 1 || is_thread ? 0 : find_lock(words[1]);
    if (number < 1 || lock < 0)
        return 0;
    if (!is_thread)
        locks[lock].level = (int)number;
    else if (find_task(words[1]) != NULL)
        find_task(words[1])->level = (int)number;
    levels = is_thread && number > levels ? (int)number : levels;
    if (trace != NULL)
        fprintf(trace, "%s %s %ld\n", words[0], words[1], (long)number);
    return 1;
}

/* Words of a line in front of `until`, or that line. */
static int read_words(char **words, int count)
{
    static const char *const heads[] = {"open", "commit", "admitted", "meets", "misses", "chain"};
    if (strcmp(words[0], "put") == 0)
        return read_put(words, count);
    if (strcmp(words[0], "thread") == 0 || strcmp(words[0], "mutex") == 0)
        return read_setting(words, count);
    if (strcmp(words[0], "until") == 0) {
        until = count == 2 ? number_of(words[1], MOST) * scale : 0;
        return until > 0;
    }
    for (size_t i = 0; i < sizeof heads / sizeof heads[0]; i++)
        if (strcmp(words[0], heads[i]) == 0)
            return count > 1;
    return read_level(words, count);
}

static int read_line(char *line)
{
    char *words[WORDS], *more;
    int count = 0;
    for (char *word = strtok_r(line, " \n", &more); word != NULL;
         word = strtok_r(NULL, " \n", &more)) {
        if (count == WORDS)
            return 0;
        words[count++] = word;
    }
    if (count == 0 || words[0][0] == '#')
        return 1;
    return until != 0 ? read_release(words, count) : read_words(words, count);
}

/* A line that isn't taken is shown as it was read. Behind `until` there are releases alone. */
static void read_input(void)
{
    static char line[8192], shown[8192];
    while (fgets(line, sizeof line, stdin) != NULL) {
        const char *why = until == 0 ? "isn't taken here"
                                     : "is no release, which the lines behind until are";
        memcpy(shown, line, sizeof shown);
        shown[strcspn(shown, "\n")] = 0;
        if (strlen(shown) == strlen(line) && !feof(stdin))
            fail(2, "line", shown, "is too long, or has a zero byte");
        if (!read_line(line))
            fail(2, "line", shown, why);
    }
    for (int i = 0; i < task_count; i++)
        if (tasks[i].level == 0)
            fail(2, "task", tasks[i].name, "has no line `thread`");
    if (job_count == 0)
        fail(2, "the input", "", "has no releases");
}

/* ---- What became of it. ---- */

static long in_set(int64_t time)
{
    return (long)((time + scale - 1) / scale);
}

/* Orders slices by their starts. */
static int by_start(const void *a, const void *b)
{
    int64_t x = ((const struct slice *)a)->start, y = ((const struct slice *)b)->start;
    return (x > y) - (x < y);
}

/* Slices that last a microsecond or more. */
static void write_trace(FILE *file)
{
    for (int i = 0; i < slice_count(); i++)
        if (in_set(slices[i].start) < in_set(slices[i].stop))
            fprintf(file, "%ld %ld %s @%d\n", in_set(slices[i].start), in_set(slices[i].stop),
                    tasks[jobs[slices[i].job].task].name, slices[i].priority - base + 1);
    for (int i = 0; i < job_count; i++) {
        fprintf(file, "job %s %ld ", tasks[jobs[i].task].name, in_set(jobs[i].arrival));
        fprintf(file, jobs[i].finish != 0 ? "%ld" : "-", in_set(jobs[i].finish));
        fprintf(file, " %ld\n", in_set(jobs[i].ready));
    }
    if (is_cut())
        fprintf(file, "the trace is cut\n"); /* which no trace of the desk has */
}

/* Outside: nobody executed, though the next to do so was ready. */
static void print_pauses(void)
{
    int64_t longest = 0, sum = 0, pauses = 0;
    for (int i = 0; i + 1 < slice_count(); i++) {
        int64_t ready = jobs[slices[i + 1].job].ready, stop = slices[i].stop;
        int64_t pause = slices[i + 1].start - (ready > stop ? ready : stop);
        longest = pause > longest ? pause : longest;
        sum += pause;
        pauses += pause > GAP;
    }
    printf("outside: %ld pauses, %ld ns in all, the longest %ld%s\n", (long)pauses, (long)sum,
           (long)longest, is_cut() ? "; the trace is cut" : "");
}

static int print_task(int number)
{
    struct task *task = &tasks[number];
    int64_t greatest = 0;
    int count = 0, open = 0, missed = 0;
    for (int i = 0; i < job_count; i++)
        if (jobs[i].task == number) {
            int64_t end = jobs[i].finish != 0 ? jobs[i].finish : until;
            int64_t response = end - jobs[i].arrival;
            greatest = response > greatest ? response : greatest;
            missed += response > task->deadline;
            open += jobs[i].finish == 0;
            count++;
        }
    int beyond = task->bound != 0 && greatest > task->bound;
    printf("%5d %-24s %8ld %8ld %8ld %5d %4d %4d%s\n", task->level, task->name, in_set(greatest),
           in_set(task->bound), in_set(task->deadline), count, missed, open,
           beyond ? " beyond" : "");
    return beyond || missed > 0;
}

/* ---- The process. ---- */

static int cpu = -1, with_load;
/* How long each probe of overheads lasts: by default Linux leaves real-time threads 950 ms of each
 * second. */
static int64_t probe = 800000000;

/* The number of an option. */
static int option_number(const char *option, int64_t from, int64_t most)
{
    int64_t number = number_of(optarg, most);
    if (number < from)
        fail(2, option, optarg, "isn't a number that it takes");
    return (int)number;
}

static void read_options(int count, char **words)
{
    static const struct option longer[] = {
        {"seconds", required_argument, NULL, 's'}, {"load", no_argument, NULL, 'l'}, {0}};
    int option;
    while ((option = getopt_long(count, words, "b:c:x:t:", longer, NULL)) != -1) {
        if (option == '?')
            fail(2, "usage:", "measure",
                 "[-b PRIORITY] [-c CPU] [-x N] [-t FILE] [--seconds N] [--load]");
        if (option == 't' && (trace = fopen(optarg, "w")) == NULL)
            fail(3, "open", optarg, strerror(errno));
        base = option == 'b' ? option_number("-b", 1, 99) : base;
        cpu = option == 'c' ? option_number("-c", 0, CPU_SETSIZE - 1) : cpu;
        scale = option == 'x' ? 1000 * (int64_t)option_number("-x", 1, 1000) : scale;
        probe = option == 's' ? 1000000000 * (int64_t)option_number("--seconds", 1, 86400) : probe;
        with_load |= option == 'l';
    }
    if (optind < count)
        fail(2, "the word", words[optind], "isn't taken");
}

/* Binds the process to one processor, the last one that is allowed where none was named. */
static void bind_to_processor(void)
{
    cpu_set_t allowed, one;
    need(sched_getaffinity(0, sizeof allowed, &allowed) != 0 ? errno : 0, "ask for the",
         "processors");
    for (int i = 0, named = cpu >= 0; !named && i < CPU_SETSIZE; i++)
        cpu = CPU_ISSET((size_t)i, &allowed) ? i : cpu;
    CPU_ZERO(&one);
    CPU_SET((size_t)cpu, &one);
    need(sched_setaffinity(0, sizeof one, &one) != 0 ? errno : 0, "bind to a", "processor");
}

static void run_tasks(void)
{
    pthread_t threads[TASKS];
    for (int i = 0; i < lock_count; i++)
        make_mutex(&locks[i]);
    start = now(CLOCK_MONOTONIC) + 200000000;
    for (int i = 0; i < task_count; i++)
        threads[i] = run(tasks[i].level, run_task, &tasks[i], tasks[i].name);
    if (now(CLOCK_MONOTONIC) > start)
        fail(3, "the start", "of the threads", "took too long");
    for (int i = 0; i < task_count; i++)
        pthread_join(threads[i], NULL);
}

int main(int count, char **words)
{
    int status = 0;
    base = sched_get_priority_min(SCHED_FIFO);
    read_options(count, words);
    read_input();
    if (with_load)
        start_load();
    bind_to_processor();
    need(mlockall(MCL_CURRENT | MCL_FUTURE) != 0 ? errno : 0, "mlockall",
         "(CAP_IPC_LOCK, or RLIMIT_MEMLOCK)");
    print_warnings("", cpu);
    /* (ends the process, whatever its threads do) */
    alarm((unsigned)((until + overheads_last(probe)) / 1000000000 + 30));
    printf("processor %d, priorities %d to %d\n", cpu, base, base + levels - 1);
    print_overheads(probe);
    run_tasks();
    qsort(slices, (size_t)slice_count(), sizeof slices[0], by_start);
    if (trace != NULL)
        write_trace(trace);
    print_pauses();
    printf("level task                     response    bound deadline  jobs late open\n");
    for (int level = 1; level <= levels; level++)
        for (int i = 0; i < task_count; i++)
            status |= tasks[i].level == level && print_task(i);
    return status;
}
