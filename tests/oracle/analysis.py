"""The analysis, orders and verdicts, explanations: DEFINITIONS.md, definition by definition.

`tasks` is a set by rank, a task is its index, `above` a set of indexes, an order a list of indexes, lowest first.
"""

import math
from fractions import Fraction
from typing import NamedTuple


# The analysis


def uses(tasks, k):
    """The locks that some section of task k names."""
    return {lock for section in tasks[k].sections for lock in section.locks}


def reached_locks(tasks, i, above):
    """The locks that task i or one above it uses: a section that names one of them is reached."""
    return set().union(*(uses(tasks, k) for k in {i, *above}))


def blocking_of(tasks, i, above):
    """The greatest len of a section of a task outside `above` and other than i that `above` with i reaches; else 0."""
    reached = reached_locks(tasks, i, above)
    return max(
        (
            section.len
            for k, task in enumerate(tasks)
            if k != i and k not in above
            for section in task.sections
            if reached & set(section.locks)
        ),
        default=0,
    )


def releases_within(task, t):
    """How many jobs of a task become ready in a window of length t."""
    return -(-(t + task.jitter) // task.period)


def timers_within(tasks, t):
    """What the timers of all tasks take in a window."""
    return sum(releases_within(task, t) * task.node.release for task in tasks)


def interrupts_of(tasks):
    """Those on the account of each task."""
    return [interrupt for task in tasks for interrupt in task.interrupts]


def has_interrupts(tasks):
    return any(task.node.release > 0 or task.interrupts for task in tasks)


def uninterrupted(tasks):
    """The same, of which timers take nothing, without interrupts."""
    return [task._replace(node=task.node._replace(release=0), interrupts=()) for task in tasks]


def interrupts_within(tasks, t):
    """What timers and interrupts take in a window of whoever executes."""
    return timers_within(tasks, t) + sum(-(-t // period) * cost for period, cost in interrupts_of(tasks))


def demand_of(tasks, i, above, t):
    interference = sum(releases_within(tasks[h], t) * tasks[h].cost for h in above)
    return tasks[i].cost + blocking_of(tasks, i, above) + interference + interrupts_within(tasks, t)


def trail(tasks, i, above, blocked=blocking_of):
    """1, its demand, the demand of that, .. up to the first that is its own demand or is past the limit.

    Demands rise with t, so the former is the least that is its own demand, and the latter shows that there is none.
    """
    fixed = tasks[i].cost + blocked(tasks, i, above)
    others = [(tasks[h].jitter, tasks[h].period, tasks[h].cost) for h in above]
    others += [(task.jitter, task.period, task.node.release) for task in tasks]
    others += [(0, period, cost) for period, cost in interrupts_of(tasks)]
    others = [other for other in others if other[2]]
    times = [1]
    while times[-1] <= tasks[i].limit:
        t = times[-1]
        demand = fixed + sum(-(-(t + jitter) // period) * cost for jitter, period, cost in others)
        if demand == t:
            break
        times.append(demand)
    return times


def passes(tasks, i, above, blocked=blocking_of):
    return trail(tasks, i, above, blocked)[-1] <= tasks[i].limit


def response_of(tasks, i, above, blocked=blocking_of):
    """The jitter and the least t that is its own demand."""
    return tasks[i].jitter + trail(tasks, i, above, blocked)[-1]


def is_chain(tasks, i, above, numbers):
    """From 1, each above the one before it and at most its demand; the last, and no other, is past the limit."""
    steps = zip(numbers, numbers[1:])
    return (
        numbers[0] == 1
        and all(before < after <= demand_of(tasks, i, above, before) for before, after in steps)
        and all(number <= tasks[i].limit for number in numbers[:-1])
        and numbers[-1] > tasks[i].limit
    )


# Orders and verdicts


def bound_by(tasks, i, above):
    """The tasks above that task i must outrank, by rank."""
    return [k for k in sorted(above) if tasks[i].must_outrank(tasks[k])]


def stands(tasks, i, above):
    """Task i may stand below `above`: it is unbound there and passes."""
    return not bound_by(tasks, i, above) and passes(tasks, i, above)


def is_passing_order(tasks, order):
    return all(stands(tasks, i, set(order[level + 1 :])) for level, i in enumerate(order))


def chosen(tasks, left):
    """Of the tasks that are left the one of least rank that may stand below the others; or None."""
    return next((i for i in sorted(left) if stands(tasks, i, left - {i})), None)


def climb(tasks, left):
    """The chosen tasks level by level, lowest first, and those that are left where none may stand."""
    left, order = set(left), []
    while (i := chosen(tasks, left)) is not None:
        order.append(i)
        left.remove(i)
    return order, left


def greatest_obstruction(tasks, within):
    """The greatest part of `within` none of whose tasks may stand below the others of it."""
    return climb(tasks, within)[1]


def best_order(tasks):
    """The best order, or None where no order passes."""
    order, left = climb(tasks, range(len(tasks)))
    return None if left else order


def is_feasible(tasks):
    return best_order(tasks) is not None


def levels_of(order):
    """For each level from the lowest: its number from 1, its task, the tasks above."""
    return [(level, i, set(order[level:])) for level, i in enumerate(order, 1)]


class Reason(NamedTuple):
    """Why a task may not stand: a task above that it must outrank, or a chain."""

    over: str | None
    chain: tuple = ()


def reason_of(tasks, i, above):
    """Where it is bound, the task of least rank that it names there; else its full chain. It may not stand."""
    bound = bound_by(tasks, i, above)
    return Reason(tasks[bound[0]].name) if bound else Reason(None, tuple(trail(tasks, i, above)))


def ceilings(tasks, order):
    """Each lock, in the order of first sight, and the level of its highest user."""
    level = {i: place for place, i in enumerate(order, 1)}
    locks = [lock for task in tasks for section in task.sections for lock in section.locks]
    return {lock: max(level[k] for k in level if lock in uses(tasks, k)) for lock in locks}


# Explanations


def least_conflict(tasks, obstruction):
    """What is left of an obstruction when it is gone through by rank."""
    left = set(obstruction)
    for i in sorted(obstruction):
        if i in left:
            left = greatest_obstruction(tasks, left - {i}) or left
    return left


class Blocker(NamedTuple):
    task: str
    section: int
    lock: str


def first_blocker(tasks, i, above):
    """Of the sections that block longest the first by rank and place, and its first lock that i or one above uses."""
    longest, reached = blocking_of(tasks, i, above), reached_locks(tasks, i, above)
    for k, task in enumerate(tasks):
        if k != i and k not in above:
            for number, section in enumerate(task.sections, 1):
                hit = [lock for lock in section.locks if lock in reached]
                if hit and section.len == longest:
                    return Blocker(task.name, number, hit[0])
    return None


def share_of_tasks(tasks):
    """What the tasks take of the processor, without timers and interrupts."""
    return sum(Fraction(task.cost, task.period) for task in tasks)


def load(tasks):
    """What the tasks take, each task's timer, and each interrupt, in millionths, rounded up once."""
    timed = sum(Fraction(task.node.release, task.period) for task in tasks)
    return math.ceil(1_000_000 * (share_of_tasks(tasks) + timed + sum(Fraction(cost, period) for period, cost in interrupts_of(tasks))))
