"""The bounds of a set's chains in an order, and the lines that say them: DEFINITIONS.md, Chains; FORMATS.md, Chains."""

import math

import analysis


def lines_of(tasks, order, responses, tell_parts=False, is_best=False):
    """The lines of all chains of a set in an order, by the response of each task, none where it misses its deadline, in the best
    order with least bounds; and whether each bound is within its limit."""
    text, all_met = [], True
    for chain in tasks.chains:
        found = parts_in(tasks, order, responses, chain)
        bound = bound_in(tasks, order, responses, chain)
        is_met = meets(chain, bound)
        text.append(line_of(chain, bound, least_bound(tasks, chain) if is_best and not is_met else None))
        if tell_parts:
            text += [f"  {words} {time}\n" for words, time in found or [] if time]
        all_met = all_met and is_met
    return "".join(text), all_met


def meets(chain, bound):
    return chain.limit is None or (bound is not None and bound <= chain.limit)


def line_of(chain, bound, least=None):
    limit = [] if chain.limit is None else ["of" if meets(chain, bound) else "misses", chain.limit]
    limit += [] if least is None else ["least", least]
    return " ".join(map(str, ["chain", chain.name, "-" if bound is None else bound, *limit])) + "\n"


def indexes_of(tasks, chain):
    """The tasks of a chain."""
    return [next(i for i, task in enumerate(tasks) if task.name == name) for name in chain.tasks]


def parts_in(tasks, order, responses, chain):
    """The parts of a chain's bound, where each of its tasks has a response."""
    indexes = indexes_of(tasks, chain)
    if any(responses[i] is None for i in indexes):
        return None
    return parts(tasks, order, responses, indexes, chain.writes, chain.offsets)


def bound_in(tasks, order, responses, chain):
    """What they come to."""
    found = parts_in(tasks, order, responses, chain)
    return None if found is None else sum(time for _, time in found)


def bound_of(tasks, order, chain):
    """What they come to in an order in which each task has a response."""
    levels = analysis.levels_of(order)
    return bound_in(tasks, order, {i: analysis.response_of(tasks, i, above) for _, i, above in levels}, chain)


def is_met(tasks, order, chain):
    """Whether an order passes, and the bound in it is within the chain's limit."""
    return analysis.is_passing_order(tasks, order) and bound_of(tasks, order, chain) <= chain.limit


def parts(tasks, order, responses, indexes, writes, offsets=()):
    """What a chain's bound is the sum of, as words and a time: before each task the wait for its next job, behind each but the
    last what is handed over to the next, and at last the response; where the tasks write at their deadlines, behind each its
    own."""
    behind = []
    for i, c in zip(indexes, [*indexes[1:], None]):
        name = tasks[i].name
        if writes == "deadline":
            behind.append((f"deadline {name}", tasks[i].deadline))
        elif c is None:
            behind.append((f"response {name}", responses[i]))
        elif order.index(c) < order.index(i):
            behind.append((f"jitter {name}", tasks[i].jitter))
        else:
            behind.append((f"response {name} less cost {tasks[c].name}", responses[i] - tasks[c].cost))
    waits = waits_of([tasks[i].period for i in indexes], offsets, [time for _, time in behind])
    return [part for i, wait, own in zip(indexes, waits, behind) for part in ((f"wait {tasks[i].name}", wait), own)]


def waits_of(periods, offsets, delays):
    """How long each task of a chain waits for its next job: a period; on one clock as in the longest span of a round."""
    return longest_walk(periods, offsets, delays)[1] if offsets else periods


def longest_walk(periods, offsets, delays):
    """When the first of the longest spans of a round begins, and the waits in it. The first task's next job comes a period later,
    of each other one the first that comes no earlier than what it reads is written."""
    walks = []
    for start in range(offsets[0], offsets[0] + math.lcm(*periods), periods[0]):
        waits, time = [periods[0]], start + periods[0] + delays[0]
        for period, offset, delay in zip(periods[1:], offsets[1:], delays[1:]):
            waits.append(max(offset - time, (offset - time) % period))
            time += waits[-1] + delay
        walks.append((time - start, start, waits))
    longest = max(span for span, _, _ in walks)
    return next((start, waits) for span, start, waits in walks if span == longest)


def above_at_least(tasks, i):
    """The tasks that stand above task i in each order that passes: who may stand below all others that are left is placed
    there, but for i."""
    left = set(range(len(tasks)))
    while others := [j for j in left if j != i and analysis.stands(tasks, j, left - {j})]:
        left.remove(others[-1])
    return left - {i}


def least_bound(tasks, chain):
    """How small the bound could be in any order that passes: by the least part of each task, by whom such an order needs above."""
    indexes = indexes_of(tasks, chain)
    least = []
    for i, c in zip(indexes, [*indexes[1:], None]):
        above = above_at_least(tasks, i)
        response = analysis.response_of(tasks, i, above)
        least.append(response if c is None else response - tasks[c].cost if c in above else tasks[i].jitter)
    if chain.writes == "deadline":
        least = [tasks[i].deadline for i in indexes]
    return sum(least) + sum(waits_of([tasks[i].period for i in indexes], chain.offsets, least))
