/* What of a Linux system delays the threads on a processor: the file that says so, what to do. */
#define _POSIX_C_SOURCE 200809L
#include "node.h"

#include <ctype.h>
#include <dirent.h>
#include <stdarg.h>
#include <stdio.h>
#include <stdlib.h>
#include <string.h>
#include <unistd.h>

enum { TEXT = 512, WORD = 64 };

static const char *folder;
static int node;

/* A file's path. One that is too long is that of no file. */
static const char *path_of(char path[TEXT], const char *form, va_list words)
{
    int used = snprintf(path, TEXT, "%s", folder);
    int more = used < TEXT ? vsnprintf(path + used, (size_t)(TEXT - used), form, words) : TEXT;
    if (used + more >= TEXT)
        path[0] = 0;
    return path;
}

/* The first line of a file, without its end; 0 where it can't be read. `path` is the file's. */
static int read_text(char text[TEXT], char path[TEXT], const char *form, ...)
{
    va_list words;
    va_start(words, form);
    FILE *file = fopen(path_of(path, form, words), "r");
    va_end(words);
    text[0] = 0;
    if (file == NULL)
        return 0;
    int is_there = fgets(text, TEXT, file) != NULL;
    fclose(file);
    text[strcspn(text, "\n")] = 0;
    return is_there;
}

static void warn(const char *path, const char *says, const char *why, const char *what_to_do)
{
    fprintf(stderr, "warning: %s says %s: %s; %s\n", path, says, why, what_to_do);
}

static void warn_unread(const char *path, const char *why)
{
    fprintf(stderr, "warning: %s can't be read, which says %s\n", path, why);
}

/* Whether a list as `0-2,5` has the processor. */
static int lists_node(const char *list)
{
    for (char *end; isdigit((unsigned char)*list); list = *end == ',' ? end + 1 : end) {
        long from = strtol(list, &end, 10), to = *end == '-' ? strtol(end + 1, &end, 10) : from;
        if (from <= node && node <= to)
            return 1;
    }
    return 0;
}

static void look_at_throttling(void)
{
    char text[TEXT], path[TEXT];
    if (!read_text(text, path, "/proc/sys/kernel/sched_rt_runtime_us"))
        warn_unread(path, "whether real-time threads are throttled");
    else if (strcmp(text, "-1") != 0)
        warn(path, text, "real-time threads stand still for the rest of each sched_rt_period_us",
             "sysctl kernel.sched_rt_runtime_us=-1");
}

static void look_at_fair_server(void)
{
    char text[TEXT], path[TEXT];
    if (read_text(text, path, "/sys/kernel/debug/sched/fair_server/cpu%d/runtime", node)) {
        if (strcmp(text, "0") != 0)
            warn(path, text, "so many ns of each second are of ordinary threads that wait",
                 "write 0 into it, or keep ordinary threads away from this processor");
    } else if (!read_text(text, path, "/sys/kernel/debug/sched/preempt")) {
        warn_unread("/sys/kernel/debug/sched",
                    "whether a fair server runs (Linux 6.12 on); mount -t debugfs none "
                    "/sys/kernel/debug");
    }
}

static void look_at_groups(void)
{
    static const char *const mounts[] = {"/sys/fs/cgroup/cpu", "/sys/fs/cgroup/cpu,cpuacct",
                                         "/sys/fs/cgroup", "/sys/fs/cgroup/unified"};
    char line[TEXT], path[TEXT], text[TEXT];
    snprintf(path, sizeof path, "%s/proc/self/cgroup", folder);
    FILE *file = fopen(path, "r");
    if (file == NULL)
        warn_unread(path, "which groups the threads are of");
    while (file != NULL && fgets(line, sizeof line, file) != NULL) {
        char *group = strchr(line, ':');
        group = group != NULL ? strchr(group + 1, ':') : NULL;
        if (group == NULL)
            continue;
        group[strcspn(group, "\n")] = 0;
        int is_cpu = strstr(line, ":cpu,") != NULL || strstr(line, ":cpu:") != NULL ||
                     strstr(line, ",cpu:") != NULL;
        int is_second = strncmp(line, "0::", 3) == 0;
        const char *in = strcmp(group + 1, "/") == 0 ? "" : group + 1;
        for (size_t i = 0; i < sizeof mounts / sizeof mounts[0]; i++) {
            if (is_cpu && read_text(text, path, "%s%s/cpu.rt_runtime_us", mounts[i], in) &&
                strcmp(text, "-1") != 0)
                warn(path, text, "the group's real-time threads have so many us of a period only",
                     "write -1 into it, or start this in the root group");
            if (is_second && read_text(text, path, "%s%s/cpu.max", mounts[i], in) &&
                strncmp(text, "max", 3) != 0)
                warn(path, text, "the group's ordinary threads are throttled, and who waits for them",
                     "write max into it");
        }
    }
    if (file != NULL)
        fclose(file);
}

static void look_at_sleep(void)
{
    char path[TEXT], text[TEXT], says[WORD];
    int32_t latency = 0;
    snprintf(path, sizeof path, "%s/dev/cpu_dma_latency", folder);
    FILE *file = fopen(path, "rb");
    int is_there = file != NULL && fread(&latency, sizeof latency, 1, file) == 1;
    if (file != NULL)
        fclose(file);
    snprintf(says, sizeof says, "%ld us", (long)latency);
    if (!is_there)
        warn_unread(path, "how deep the processor may sleep");
    else if (latency > 0)
        warn(path, says, "the processor may sleep so deep that it wakes so late",
             "keep it open with four zero bytes written, or boot with cpuidle.off=1");
    if (read_text(text, path, "/sys/devices/system/cpu/cpu%d/cpufreq/scaling_governor", node) &&
        strcmp(text, "performance") != 0)
        warn(path, text, "the frequency changes", "write performance into it");
}

static void look_at_isolation(void)
{
    char text[TEXT], path[TEXT], more[TEXT], other[TEXT];
    int is_there = read_text(text, path, "/sys/devices/system/cpu/isolated");
    read_text(more, other, "/sys/fs/cgroup/cpuset.cpus.isolated");
    if (!lists_node(text) && !lists_node(more))
        warn(path, is_there && text[0] != 0 ? text : "no processor",
             "the kernel puts other threads and its own work on this one",
             "boot with isolcpus=managed_irq,domain,N, or make a partition `isolated` of cpuset");
}

static void look_at_preemption(void)
{
    char text[TEXT], path[TEXT];
    if (read_text(text, path, "/sys/kernel/realtime") && strcmp(text, "1") == 0)
        return;
    if (read_text(text, path, "/sys/kernel/debug/sched/preempt")) {
        if (strstr(text, "(full)") == NULL)
            warn(path, text, "calls of the kernel aren't preempted at once",
                 "write full into it, boot with preempt=full, or take a kernel with PREEMPT_RT");
    } else if (!read_text(text, path, "/proc/version")) {
        warn_unread(path, "whether calls of the kernel are preempted");
    } else if (strstr(text, "PREEMPT") == NULL || strstr(text, "PREEMPT_DYNAMIC") != NULL) {
        warn(path, strstr(text, "PREEMPT_DYNAMIC") != NULL ? "PREEMPT_DYNAMIC" : "no PREEMPT",
             "calls of the kernel may not be preempted at once",
             "boot with preempt=full, or take a kernel with PREEMPT_RT");
    }
}

static void look_for_a_machine(void)
{
    char line[4 * TEXT], path[TEXT];
    snprintf(path, sizeof path, "%s/proc/cpuinfo", folder);
    FILE *file = fopen(path, "r");
    while (file != NULL && fgets(line, sizeof line, file) != NULL)
        if (strncmp(line, "flags", 5) == 0 && strstr(line, " hypervisor") != NULL) {
            warn(path, "hypervisor", "a virtual machine may stand still at any time",
                 "use the machine itself");
            break;
        }
    if (file != NULL)
        fclose(file);
}

/* The column of the processor in a first line as `  CPU0  CPU2`; -1: none. */
static int column_of(char *line)
{
    char *more, name[WORD];
    int column = 0;
    snprintf(name, sizeof name, "CPU%d", node);
    for (char *word = strtok_r(line, " \n", &more); word != NULL;
         word = strtok_r(NULL, " \n", &more))
        if (strcmp(word, name) == 0)
            return column;
        else
            column++;
    return -1;
}

/* Whether an interrupt came on the processor, and may again: `41:  5  0  PCI-MSI  eth0`. */
static int comes_here(char *line, int column, long *number)
{
    char *more, text[TEXT], path[TEXT], *word = strtok_r(line, " \n", &more);
    if (word == NULL || !isdigit((unsigned char)word[0]))
        return 0;
    *number = strtol(word, NULL, 10);
    for (int i = 0; word != NULL && i <= column; i++)
        word = strtok_r(NULL, " \n", &more);
    return word != NULL && strtoll(word, NULL, 10) > 0 &&
           read_text(text, path, "/proc/irq/%ld/smp_affinity_list", *number) && lists_node(text);
}

static void look_at_interrupts(void)
{
    static char line[64 * TEXT];
    char path[TEXT], says[WORD];
    long number, first = 0, count = 0;
    snprintf(path, sizeof path, "%s/proc/interrupts", folder);
    FILE *file = fopen(path, "r");
    int column = file != NULL && fgets(line, sizeof line, file) != NULL ? column_of(line) : -1;
    while (column >= 0 && fgets(line, sizeof line, file) != NULL)
        if (comes_here(line, column, &number) && count++ == 0)
            first = number;
    if (file != NULL)
        fclose(file);
    if (column < 0)
        warn_unread(path, "which interrupts come on this processor");
    snprintf(says, sizeof says, "%ld devices interrupt CPU%d, the first %ld", count, node, first);
    if (count > 0)
        warn(path, says, "each is an [[interrupt]]",
             "write other processors into /proc/irq/*/smp_affinity_list");
}

/* ---- Other threads: of SCHED_DEADLINE, and of the tasks' least priority or above. ---- */

struct crowd {
    long count;
    char first[TEXT];
};

static void count_thread(struct crowd *crowd, const char *path)
{
    if (crowd->count++ == 0)
        snprintf(crowd->first, sizeof crowd->first, "%s", path);
}

/* Whether a thread may execute on the processor. */
static int may_come(const char *process, const char *thread)
{
    static const char key[] = "Cpus_allowed_list:";
    char line[TEXT], path[4 * TEXT];
    int may = 0;
    snprintf(path, sizeof path, "%s/proc/%s/task/%s/status", folder, process, thread);
    FILE *file = fopen(path, "r");
    while (file != NULL && fgets(line, sizeof line, file) != NULL)
        if (strncmp(line, key, sizeof key - 1) == 0)
            may = lists_node(line + sizeof key - 1 + strspn(line + sizeof key - 1, " \t"));
    if (file != NULL)
        fclose(file);
    return may;
}

static void look_at_thread(const char *process, const char *thread, struct crowd *crowds)
{
    char text[TEXT], path[TEXT], *rest, *more;
    long priority = 0, policy = 0;
    int field = 3;
    if (!read_text(text, path, "/proc/%s/task/%s/stat", process, thread) ||
        (rest = strrchr(text, ')')) == NULL)
        return;
    int is_stopper = strstr(text, "(migration/") != NULL;
    for (char *word = strtok_r(rest + 1, " ", &more); word != NULL;
         word = strtok_r(NULL, " ", &more), field++) {
        priority = field == 40 ? strtol(word, NULL, 10) : priority;
        policy = field == 41 ? strtol(word, NULL, 10) : policy;
    }
    if (policy == 6)
        count_thread(&crowds[0], path);
    else if ((policy == 1 || policy == 2) && priority >= base && !is_stopper &&
             may_come(process, thread))
        count_thread(&crowds[1], path);
}

static void look_at_process(const char *process, struct crowd *crowds)
{
    char path[TEXT];
    snprintf(path, sizeof path, "%s/proc/%.32s/task", folder, process);
    DIR *threads = opendir(path);
    for (struct dirent *it; threads != NULL && (it = readdir(threads)) != NULL;)
        if (isdigit((unsigned char)it->d_name[0]))
            look_at_thread(process, it->d_name, crowds);
    if (threads != NULL)
        closedir(threads);
}

static void look_at_threads(void)
{
    struct crowd crowds[2] = {{0, ""}, {0, ""}};
    char path[TEXT], own[WORD], says[WORD];
    snprintf(path, sizeof path, "%s/proc", folder);
    snprintf(own, sizeof own, "%ld", (long)getpid());
    DIR *processes = opendir(path);
    for (struct dirent *it; processes != NULL && (it = readdir(processes)) != NULL;)
        if (isdigit((unsigned char)it->d_name[0]) && strcmp(it->d_name, own) != 0)
            look_at_process(it->d_name, crowds);
    if (processes != NULL)
        closedir(processes);
    snprintf(says, sizeof says, "SCHED_DEADLINE, and so do %ld in all", crowds[0].count);
    if (crowds[0].count > 0)
        warn(crowds[0].first, says, "these threads execute before each SCHED_FIFO thread",
             "give them SCHED_FIFO priorities below the tasks, or other processors");
    snprintf(says, sizeof says, "real time from %d on, and so do %ld in all", base,
             crowds[1].count);
    if (crowds[1].count > 0)
        warn(crowds[1].first, says, "these threads execute at the tasks' priorities or above",
             "bind them to other processors, or take a base above them");
}

void print_warnings(const char *below, int cpu)
{
    folder = below;
    node = cpu;
    look_at_throttling();
    look_at_fair_server();
    look_at_groups();
    look_at_threads();
    look_at_sleep();
    look_at_isolation();
    look_at_preemption();
    look_at_interrupts();
    look_for_a_machine();
}
