/* Tries parts of examples/posix by themselves, for tests/measure:
 *
 *     node_parts fit                  the interrupts that cover pauses: prints what is wrong
 *     node_parts warnings FOLDER CPU  the warnings over the files below a folder
 *     node_parts number WORD MOST     the number that a word is
 */
#define _POSIX_C_SOURCE 200809L
#include "../examples/posix/node.h"

#include <stdio.h>
#include <stdlib.h>
#include <string.h>

enum { MOST = 3000 };
static struct pause pauses[MOST];
static size_t count;
static struct interrupt found[INTERRUPTS];
static int interrupts, wrong;

static void expect(int holds, const char *what)
{
    if (!holds) {
        printf("fit: %s\n", what);
        wrong = 1;
    }
}

static void put(int64_t begin, int64_t length)
{
    if (count < MOST)
        pauses[count++] = (struct pause){begin, length};
}

/* What the interrupts take in a window of so many nanoseconds. */
static int64_t taken_within(int64_t window)
{
    int64_t sum = 0;
    for (int i = 0; i < interrupts; i++)
        sum += (window + 1000 * found[i].period - 1) / (1000 * found[i].period) * 1000 * found[i].cost;
    return sum;
}

/* Whether the windows that begin with a pause, which so much of others follows, and end in another one are covered: there an
 * interrupt's next time is what may be too late. */
static int is_covered(int64_t apart, int64_t before, int64_t length)
{
    int covered = before + length <= taken_within(apart + length);
    for (int i = 0; i < interrupts; i++)
        for (int64_t time = apart / (1000 * found[i].period) * 1000 * found[i].period;
             time < apart + length; time += 1000 * found[i].period)
            covered &= time <= apart || before + time - apart <= taken_within(time);
    return covered;
}

/* Finds the interrupts, and looks at each window that begins with a pause. Others have no more in them. */
static void cover(int64_t looked)
{
    int covered = 1;
    interrupts = fit_interrupts(pauses, count, looked, found);
    for (size_t from = 0; from < count; from++) {
        int64_t before = 0;
        for (size_t to = from; to < count; before += pauses[to++].length)
            covered &= is_covered(pauses[to].begin - pauses[from].begin, before, pauses[to].length);
    }
    expect(covered, "a window has more than the interrupts");
    for (int i = 0; i < interrupts; i++)
        expect(found[i].period >= 100 && found[i].period <= 10000000 && found[i].cost >= 1 &&
                   found[i].cost <= found[i].period,
               "an interrupt that no set may have");
}

static int64_t costs(void)
{
    int64_t sum = 0;
    for (int i = 0; i < interrupts; i++)
        sum += found[i].cost;
    return sum;
}

/* How much of a second they take, in microseconds. */
static int64_t load(void)
{
    int64_t sum = 0;
    for (int i = 0; i < interrupts; i++)
        sum += found[i].cost * 1000000 / found[i].period;
    return sum;
}

static void try_known(void)
{
    count = 0;
    expect(fit_interrupts(pauses, 0, 800000000, found) == 0, "an interrupt of no pause");
    put(5000, 423500);
    cover(800000000);
    expect(interrupts == 1 && found[0].period == 800000 && found[0].cost == 424,
           "one pause is one of all the time");
    /* 5 us each 4 ms, and 424 us once a second: 1,250 and 424 us a second. */
    count = 0;
    for (int64_t i = 0; i < 2500; i++)
        put(i * 4000000, i % 250 == 100 ? 424000 : 5000);
    cover(10000000000);
    expect(interrupts >= 2, "a rare pause and ticks are two");
    expect(costs() <= 435, "a short window counts little more than the longest pause");
    expect(load() <= 1800, "a second counts little more than its pauses");
    /* 20 us each ms. */
    count = 0;
    for (int64_t i = 0; i < 800; i++)
        put(i * 1000000, 20000);
    cover(800000000);
    expect(interrupts == 1 && found[0].period == 1000 && found[0].cost == 20, "an interrupt is itself");
    /* All of the time but a nanosecond each ms. */
    count = 0;
    for (int64_t i = 0; i < 800; i++)
        put(i * 1000000, 999999);
    cover(800000000);
}

static void try_random(unsigned seed)
{
    srand(seed);
    for (int turn = 0; turn < 60; turn++) {
        int64_t time = 0, most = 2000 << rand() % 12, rare = 1 + rand() % 100, apart = 1000 << rand() % 12;
        count = 0;
        for (int i = rand() % 400; i >= 0; i--) {
            int64_t length = 1001 + rand() % (rand() % rare == 0 ? 30 * most : most);
            put(time, length);
            time += length + 1 + rand() % apart * (1 + rand() % 30);
        }
        cover(time);
    }
}

int main(int words, char **word)
{
    if (words == 2 && strcmp(word[1], "fit") == 0) {
        try_known();
        for (unsigned seed = 1; seed <= 5; seed++)
            try_random(seed);
    } else if (words == 4 && strcmp(word[1], "warnings") == 0) {
        base = 1;
        print_warnings(word[2], (int)number_of(word[3], 1000));
    } else if (words == 4 && strcmp(word[1], "number") == 0) {
        printf("%lld\n", (long long)number_of(word[2], atoll(word[3])));
    } else {
        return 2;
    }
    return wrong;
}
