/* The interrupts of a table: no fewer than the pauses that were seen.
 *
 * Each pause is cut in up to three layers by its length: what it lasts up to a first threshold, from
 * there up to a second one, and beyond. An interrupt covers a layer: in each of its periods it takes
 * as much as the layer did in the worst window of that length, so in a window of any length no less
 * than the layer; and all together take no less than the pauses. Of all such thresholds and periods
 * those are taken that count the least beside what was seen, summed over windows of 1, 2, 5, 10, ..
 * ms; a further interrupt only where that is a twentieth less. No period is longer than the time
 * that was looked at. */
#define _POSIX_C_SOURCE 200809L
#include "node.h"

#include <stdlib.h>

enum { THRESHOLDS = 32, WINDOWS = 16, NANO = 1000, SHORTEST = 100, LONGEST = 10000000 };
static const int64_t NEVER = INT64_MAX / 8;

/* What is looked at. `part` is what a layer has of the pauses; the periods in microseconds. */
static const struct pause *seen;
static struct pause *part;
static size_t seen_count, part_count;
static int64_t longest_period;
static int64_t windows[WINDOWS], worst[WINDOWS];
static int window_count;

/* The most that begins in a window of so many microseconds, in nanoseconds. */
static int64_t worst_within(const struct pause *pauses, size_t count, int64_t window)
{
    int64_t sum = 0, most = 0;
    for (size_t from = 0, to = 0; from < count; sum -= pauses[from++].length) {
        for (; to < count && pauses[to].begin < pauses[from].begin + NANO * window; to++)
            sum += pauses[to].length;
        most = sum > most ? sum : most;
    }
    return most;
}

/* The longest window, in microseconds, in which no more than so many begin. */
static int64_t window_of(size_t number)
{
    int64_t least = NANO * longest_period;
    for (size_t i = 0; i + number < part_count; i++)
        if (part[i + number].begin - part[i].begin < least)
            least = part[i + number].begin - part[i].begin;
    return least / NANO < SHORTEST ? SHORTEST : least / NANO;
}

/* How much an interrupt counts over all windows, in thousandths of what was seen there. */
static int64_t weight(struct interrupt it)
{
    int64_t sum = 0;
    for (int i = 0; i < window_count; i++)
        sum += (windows[i] + it.period - 1) / it.period * it.cost * NANO * 1000 / worst[i];
    return sum;
}

/* The layer of the pauses from one length to another. */
static void take_layer(int64_t from, int64_t to)
{
    part_count = 0;
    for (size_t i = 0; i < seen_count; i++)
        if (seen[i].length > from)
            part[part_count++] =
                (struct pause){seen[i].begin, (seen[i].length < to ? seen[i].length : to) - from};
}

/* The interrupt of a period that covers the layer. One that takes all of the time covers any. */
static struct interrupt cover(int64_t period)
{
    int64_t cost = (worst_within(part, part_count, period) + NANO - 1) / NANO;
    return (struct interrupt){period, cost < period ? cost : period};
}

/* The interrupt that covers a layer and weighs the least; returns its weight. */
static int64_t cover_layer(int64_t from, int64_t to, struct interrupt *best)
{
    int64_t least = NEVER;
    take_layer(from, to);
    *best = (struct interrupt){0, 0};
    if (part_count == 0)
        return NEVER;
    for (size_t number = 1, step = 1;; number += step) {
        int64_t period = number < part_count ? window_of(number) : longest_period;
        struct interrupt it = cover(period);
        if (weight(it) < least) {
            least = weight(it);
            *best = it;
        }
        if (number >= part_count)
            return least;
        step = number >= 4 * step ? 2 * step : step;
    }
}

static int by_length(const void *a, const void *b)
{
    int64_t x = *(const int64_t *)a, y = *(const int64_t *)b;
    return (x > y) - (x < y);
}

/* Lengths at which a pause may be cut, from 0 on: those of the longest one but 1, 2, 3, 4, 6, .. */
static int find_thresholds(int64_t *threshold)
{
    int64_t *length = need_memory(seen_count, sizeof *length, "the pauses");
    int count = 0;
    size_t ranks[THRESHOLDS], rank = 1;
    for (size_t i = 0; i < seen_count; i++)
        length[i] = seen[i].length;
    qsort(length, seen_count, sizeof *length, by_length);
    for (; rank < seen_count && count < THRESHOLDS - 1; rank += rank < 4 ? 1 : rank / 2)
        ranks[count++] = rank;
    int distinct = 1;
    threshold[0] = 0;
    while (count-- > 0)
        if (length[seen_count - 1 - ranks[count]] > threshold[distinct - 1])
            threshold[distinct++] = length[seen_count - 1 - ranks[count]];
    free(length);
    return distinct;
}

static void find_windows(int64_t looked)
{
    static const int64_t steps[] = {1, 2, 5};
    window_count = 0;
    for (int64_t ten = 1000; window_count + 3 <= WINDOWS && ten <= LONGEST; ten *= 10)
        for (int i = 0; i < 3; i++)
            if (window_count == 0 || ten * steps[i] <= looked / NANO)
                windows[window_count++] = ten * steps[i];
    for (int i = 0; i < window_count; i++)
        worst[i] = worst_within(seen, seen_count, windows[i]);
}

/* The least weight of so many layers from a threshold on, and where they end. `layer` has the
 * weight of each from one threshold up to another. */
static int64_t best_cut(int64_t (*layer)[THRESHOLDS + 1], int thresholds, int from, int layers,
                        int *cuts)
{
    int64_t least = NEVER;
    if (layers == 1) {
        cuts[0] = thresholds;
        return layer[from][thresholds];
    }
    for (int to = from + 1; to < thresholds; to++) {
        int further[INTERRUPTS];
        int64_t rest = best_cut(layer, thresholds, to, layers - 1, further);
        if (layer[from][to] < NEVER && rest < NEVER && layer[from][to] + rest < least) {
            least = layer[from][to] + rest;
            cuts[0] = to;
            for (int i = 1; i < layers; i++)
                cuts[i] = further[i - 1];
        }
    }
    return least;
}

int fit_interrupts(const struct pause *pauses, size_t count, int64_t looked,
                   struct interrupt *found)
{
    static int64_t layer[THRESHOLDS + 1][THRESHOLDS + 1];
    static struct interrupt of[THRESHOLDS + 1][THRESHOLDS + 1];
    int64_t threshold[THRESHOLDS + 1], least = NEVER;
    int cuts[INTERRUPTS][INTERRUPTS], layers = 0;
    if (count == 0)
        return 0;
    seen = pauses;
    seen_count = count;
    part = need_memory(count, sizeof *part, "the pauses");
    longest_period = looked / NANO < LONGEST ? looked / NANO : LONGEST;
    longest_period = longest_period < SHORTEST ? SHORTEST : longest_period;
    find_windows(looked);
    int thresholds = find_thresholds(threshold);
    threshold[thresholds] = INT64_MAX;
    for (int from = 0; from < thresholds; from++)
        for (int to = from + 1; to <= thresholds; to++)
            layer[from][to] = cover_layer(threshold[from], threshold[to], &of[from][to]);
    for (int number = 1; number <= INTERRUPTS; number++) {
        int64_t weight = best_cut(layer, thresholds, 0, number, cuts[number - 1]);
        if (number == 1 || weight < least - least / 20) {
            least = weight;
            layers = number;
        }
    }
    for (int i = 0, from = 0; i < layers; from = cuts[layers - 1][i++])
        found[i] = of[from][cuts[layers - 1][i]];
    free(part);
    return layers;
}
