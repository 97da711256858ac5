/* Calls the static library as include/desk.h says: `library COMMAND FILE [FILE|UNTIL|TASK|CHAIN]` prints the answer, what is
 * told of it to standard error, and ends with its status. Each of the two is asked for with no room, with one byte too few,
 * with just as many as it has, and with bytes to spare, by four threads at once; the program aborts where these answers or
 * their surroundings are not as the header says.
 */
#include "desk.h"
#include <pthread.h>
#include <stdio.h>
#include <stdlib.h>
#include <string.h>

enum { THREADS = 4, SPARE = 16, MARK = 0xa5, STACK = 1 << 18 };

struct bytes {
    uint8_t *at;
    size_t length;
};

struct question {
    const char *command;
    struct bytes first, second;
    uint64_t until;
    int is_told;
};

struct answer {
    const struct question *question;
    struct bytes text;
    uint8_t status;
};

static void hold(int fact, const char *what)
{
    if (!fact) {
        fprintf(stderr, "not as desk.h says: %s\n", what);
        abort();
    }
}

static void *taken(size_t length)
{
    void *at = malloc(length + 1);
    hold(at != NULL, "malloc");
    return at;
}

/* An empty file is NULL with the length 0. */
static struct bytes read_file(const char *path)
{
    struct bytes read = {NULL, 0};
    FILE *file = fopen(path, "rb");
    hold(file != NULL, path);
    for (int byte = getc(file); byte != EOF; byte = getc(file)) {
        if ((read.length & (read.length - 1)) == 0) {
            read.at = realloc(read.at, 2 * read.length + 1);
            hold(read.at != NULL, "realloc");
        }
        read.at[read.length++] = (uint8_t)byte;
    }
    fclose(file);
    return read;
}

static const struct {
    const char *name;
    uint8_t number;
} COMMANDS[] = {
    {"admit", DESK_ADMIT},     {"certify", DESK_CERTIFY}, {"check", DESK_CHECK},       {"limits", DESK_LIMITS},
    {"settings", DESK_SETTINGS}, {"explain", DESK_EXPLAIN}, {"judge", DESK_JUDGE},     {"diff", DESK_DIFF},
    {"releases", DESK_RELEASES}, {"simulate", DESK_SIMULATE}, {"draw", DESK_DRAW},     {"play", DESK_PLAY},
    {"observe", DESK_OBSERVE}, {"worst", DESK_WORST},     {"draw_beside", DESK_DRAW_BESIDE},
    {"worst_chain", DESK_WORST_CHAIN}, {"draw_chain", DESK_DRAW_CHAIN},
};

static uint8_t number_of(const char *command)
{
    for (size_t i = 0; i < sizeof COMMANDS / sizeof *COMMANDS; i++) {
        if (!strcmp(command, COMMANDS[i].name)) return COMMANDS[i].number;
    }
    return 0;
}

static size_t ask(const struct question *it, uint8_t *room, size_t length, uint8_t *status)
{
    struct bytes a = it->first, b = it->second;
    const char *command = it->command;
    if (it->is_told) {
        return desk_tell(number_of(command), a.at, a.length, b.at, b.length, it->until, room, length, status);
    }
    if (!strcmp(command, "admit")) return desk_admit(a.at, a.length, room, length, status);
    if (!strcmp(command, "certify")) return desk_certify(a.at, a.length, room, length, status);
    if (!strcmp(command, "limits")) return desk_limits(a.at, a.length, room, length, status);
    if (!strcmp(command, "settings")) return desk_settings(a.at, a.length, room, length, status);
    if (!strcmp(command, "explain")) return desk_explain(a.at, a.length, room, length, status);
    if (!strcmp(command, "worst")) return desk_worst(a.at, a.length, b.at, b.length, room, length, status);
    if (!strcmp(command, "worst_chain")) return desk_worst_chain(a.at, a.length, b.at, b.length, room, length, status);
    if (!strcmp(command, "play")) return desk_play(a.at, a.length, room, length, status);
    if (!strcmp(command, "releases")) return desk_releases(a.at, a.length, it->until, room, length, status);
    if (!strcmp(command, "check")) return desk_check(a.at, a.length, b.at, b.length, room, length, status);
    if (!strcmp(command, "judge")) return desk_judge(a.at, a.length, b.at, b.length, room, length, status);
    if (!strcmp(command, "diff")) return desk_diff(a.at, a.length, b.at, b.length, room, length, status);
    if (!strcmp(command, "simulate")) return desk_simulate(a.at, a.length, b.at, b.length, room, length, status);
    if (!strcmp(command, "draw")) return desk_draw(a.at, a.length, b.at, b.length, room, length, status);
    if (!strcmp(command, "draw_beside")) return desk_draw_beside(a.at, a.length, b.at, b.length, room, length, status);
    if (!strcmp(command, "draw_chain")) return desk_draw_chain(a.at, a.length, b.at, b.length, room, length, status);
    if (!strcmp(command, "observe")) return desk_observe(a.at, a.length, b.at, b.length, room, length, status);
    hold(0, command);
    return 0;
}

static int is_marked(const uint8_t *from, size_t length)
{
    while (length > 0 && from[length - 1] == MARK) length--;
    return length == 0;
}

static void *answered(void *argument)
{
    struct answer *it = argument;
    uint8_t status = MARK;
    size_t needed = ask(it->question, NULL, 0, &it->status);
    size_t length = needed + SPARE;
    uint8_t *room = taken(length), *exact = taken(needed);
    memset(room, MARK, length);
    if (needed > 0) {
        hold(ask(it->question, room, needed - 1, &status) == needed && status == it->status, "the same count and status");
        hold(is_marked(room, length), "too little room is left as it was");
    }
    hold(ask(it->question, room, length, &status) == needed && status == it->status, "the same count and status again");
    hold(is_marked(room + needed, SPARE), "the rest of the room is left as it was");
    hold(ask(it->question, exact, needed, &status) == needed && status == it->status, "the same where it just fits");
    hold(!memcmp(exact, room, needed), "the same text where it just fits");
    free(exact);
    it->text = (struct bytes){room, needed};
    return NULL;
}

/* The answer of four threads to a question, each of which has a small stack. */
static struct answer asked(const struct question *question)
{
    struct answer answers[THREADS];
    pthread_t threads[THREADS];
    pthread_attr_t small;
    hold(!pthread_attr_init(&small) && !pthread_attr_setstacksize(&small, STACK), "a small stack");
    for (int i = 0; i < THREADS; i++) {
        answers[i].question = question;
        hold(!pthread_create(&threads[i], &small, answered, &answers[i]), "a thread");
    }
    for (int i = 0; i < THREADS; i++) {
        hold(!pthread_join(threads[i], NULL), "a thread's end");
        hold(answers[i].status == answers[0].status && answers[i].text.length == answers[0].text.length
                 && !memcmp(answers[i].text.at, answers[0].text.at, answers[0].text.length),
             "the same answer in each thread");
    }
    for (int i = 1; i < THREADS; i++) free(answers[i].text.at);
    return answers[0];
}

/* A number without a command: nothing is told. */
static void hold_unknown(uint8_t number)
{
    uint8_t room[SPARE], status = MARK;
    memset(room, MARK, SPARE);
    hold(desk_tell(number, NULL, 0, NULL, 0, 0, room, SPARE, &status) == 0, "no count without a command");
    hold(status == DESK_BAD_ARGUMENTS && is_marked(room, SPARE), "no text without a command");
}

int main(int count, char **words)
{
    hold(count == 3 || count == 4, "usage: library COMMAND FILE [FILE|UNTIL|TASK|CHAIN]");
    struct question question = {words[1], read_file(words[2]), {NULL, 0}, 0, 0};
    if (!strcmp(words[1], "releases")) {
        question.until = strtoull(words[3], NULL, 10);
    } else if (count == 4 && !strncmp(words[1], "worst", 5)) {
        question.second = (struct bytes){(uint8_t *)strdup(words[3]), strlen(words[3])};
    } else if (count == 4) {
        question.second = read_file(words[3]);
    }
    struct answer answer = asked(&question);
    question.is_told = 1;
    struct answer told = asked(&question);
    hold(told.status == answer.status, "the same status beside what is told");
    hold_unknown(0);
    hold_unknown(DESK_DRAW_CHAIN + 1);
    fwrite(answer.text.at, 1, answer.text.length, stdout);
    fwrite(told.text.at, 1, told.text.length, stderr);
    free(answer.text.at);
    free(told.text.at);
    free(question.first.at);
    free(question.second.at);
    return answer.status;
}
