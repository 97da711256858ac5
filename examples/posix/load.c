/* Processes that load a node as ordinary ones do: caches, memory, the kernel's calls, timers. */
#define _GNU_SOURCE /* for sched_setaffinity, and prctl of Linux */
#include "node.h"

#include <errno.h>
#include <sched.h>
#include <signal.h>
#include <stdlib.h>
#include <string.h>
#include <sys/mman.h>
#include <sys/prctl.h>
#include <unistd.h>

enum { WIDE = 16 << 20, LINE = 64, PIECE = 1 << 20 };

static pid_t children[CPU_SETSIZE];
static int child_count;

static void end_load(void)
{
    while (child_count > 0)
        kill(children[--child_count], SIGKILL);
}

/* Writes through memory wider than most caches, takes and gives back pages, goes through a pipe,
 * and sleeps now and then. */
static _Noreturn void load(void)
{
    int ends[2];
    char *wide = malloc(WIDE), word = 0;
    if (wide == NULL || pipe(ends) != 0)
        _exit(1);
    for (unsigned turn = 0;; turn++) {
        for (size_t i = turn % LINE; i < WIDE; i += LINE)
            wide[i]++;
        char *piece = mmap(NULL, PIECE, PROT_READ | PROT_WRITE, MAP_PRIVATE | MAP_ANONYMOUS, -1, 0);
        if (piece != MAP_FAILED) {
            memset(piece, (int)turn, PIECE);
            munmap(piece, PIECE);
        }
        for (int i = 0; i < 100; i++)
            if (write(ends[1], &word, 1) != 1 || read(ends[0], &word, 1) != 1)
                _exit(1);
        if (turn % 8 == 0)
            nanosleep(&(struct timespec){0, 300000}, NULL);
    }
}

/* A child is an ordinary process on one processor, and ends when this one does. */
static void start_child(int cpu, pid_t parent)
{
    pid_t child = fork();
    need(child < 0 ? errno : 0, "start", "the load");
    if (child != 0) {
        children[child_count++] = child;
        return;
    }
    cpu_set_t one;
    CPU_ZERO(&one);
    CPU_SET((size_t)cpu, &one);
    prctl(PR_SET_PDEATHSIG, SIGKILL);
    if (getppid() != parent || sched_setaffinity(0, sizeof one, &one) != 0 ||
        sched_setscheduler(0, SCHED_OTHER, &(struct sched_param){0}) != 0)
        _exit(1);
    load();
}

void start_load(void)
{
    cpu_set_t allowed;
    pid_t parent = getpid();
    need(sched_getaffinity(0, sizeof allowed, &allowed) != 0 ? errno : 0, "ask for the",
         "processors");
    atexit(end_load);
    for (int cpu = 0; cpu < CPU_SETSIZE; cpu++)
        if (CPU_ISSET((size_t)cpu, &allowed))
            start_child(cpu, parent);
}
