"""The worst case of a task, and the run that a chain's bound describes, as release lists: DEFINITIONS.md, The worst case as a
run, Chains of tasks; FORMATS.md, worst."""

import math
from typing import NamedTuple

import analysis
import chain_bounds
import chain_runs
import kernel
import settings


def deciding_order(tasks, members):
    """Of these tasks, lowest first: of those that are left and need not stand above another of them the one of the longest
    limit, of equals that of least rank; where each must, that of least rank."""
    order, left = [], set(members)
    while left:
        free = [i for i in sorted(left) if not analysis.bound_by(tasks, i, left - {i})]
        order.append(max(free, key=lambda i: tasks[i].limit) if free else min(left))
        left.remove(order[-1])
    return order


def order_for(tasks, i):
    """The order of a refused set: below the others of the minimal conflict for a task of it, else one that decides."""
    every = range(len(tasks))
    conflict = analysis.least_conflict(tasks, analysis.greatest_obstruction(tasks, every))
    if i not in conflict:
        return deciding_order(tasks, every)
    return [k for k in every if k not in conflict] + [i] + deciding_order(tasks, conflict - {i})


def whose(tasks, order):
    """In a passing order the task of least slack, in another the highest that may not stand in its place."""
    levels = [(i, above) for _, i, above in analysis.levels_of(order)]
    failing = [i for i, above in levels if not analysis.stands(tasks, i, above)]
    if failing:
        return failing[-1]
    slack = {i: tasks[i].deadline - analysis.response_of(tasks, i, above) for i, above in levels}
    return min(reversed(order), key=lambda i: slack[i])


def worst_case(tasks, order, i):
    """The end and the releases: the task and those above it become ready together, when the blocker has executed the first
    tick of its section."""
    above = order[order.index(i) + 1 :]
    members = [tasks[k] for k in [i, *above]]
    instant, sooner, blocker = max(task.jitter for task in members), 0, None
    if analysis.blocking_of(tasks, i, set(above)):
        name, number, _ = analysis.first_blocker(tasks, i, set(above))
        blocker = next(task for task in tasks if task.name == name)
        sooner = blocker.sections[number - 1].at + 1
        instant = max(instant, sooner)
    until = instant + tasks[i].limit
    # by time, and those of one time in the order in which they are put here
    releases = []
    for task in members:
        first = instant - task.jitter
        releases.append(kernel.Release(first, task.name, task.jitter))
        releases += [kernel.Release(time, task.name, 0) for time in range(first + task.period, until, task.period)]
    if blocker is not None:
        releases.append(kernel.Release(instant - sooner, blocker.name, 0))
    return until, sorted(releases, key=lambda release: release.arrival)


def run(tasks, order, i):
    """What is said of the task's worst case, and its end and releases; none up to 0 where there are too many. Of a deadline
    that is missed the list goes on until the job is done."""
    until, releases = worst_case(tasks, order, i)
    too_many = len(releases) > kernel.RELEASES_MOST
    what = what_of(tasks, order, i, until, releases, too_many)
    if what.startswith("misses "):
        _, jobs = kernel.run(tasks, order, analysis.ceilings(tasks, order), kernel.HORIZON, releases)
        own = next(job for job in jobs if job.task.name == tasks[i].name)
        until = until if own.finish is None else own.finish
    return what, (0, []) if too_many else (until, releases)


def what_of(tasks, order, i, until, releases, too_many):
    task, above = tasks[i], set(order[order.index(i) + 1 :])
    passes, bound_by = analysis.passes(tasks, i, above), analysis.bound_by(tasks, i, above)
    if passes and bound_by:
        return f"must-outrank {tasks[bound_by[0]].name}"
    if too_many:
        return "too-many-releases"
    _, jobs = kernel.run(tasks, order, analysis.ceilings(tasks, order), until, releases)
    own = next(job for job in jobs if job.task.name == task.name)
    stopped = kernel.overruns(jobs)
    if passes:
        if stopped:
            return "below-a-miss"
        response = "-" if own.finish is None else own.finish - own.release.arrival
        return f"{response} of {analysis.response_of(tasks, i, above)}"
    if own.finish is None and not stopped:
        return f"misses {task.deadline}"
    return why_not(tasks, order, i)


def why_not(tasks, order, i):
    """Why the run of a task that doesn't pass doesn't show that."""
    higher = order[order.index(i) + 1 :]
    for place, k in enumerate(higher, 1):
        if not analysis.passes(tasks, k, set(higher[place:])):
            return f"below {tasks[k].name}"
    last, reached = tasks[i].cost - 1, set().union(*(analysis.uses(tasks, k) for k in higher))
    inside = any(section.at < last < section.end and reached & set(section.locks) for section in tasks[i].sections)
    if inside:
        return "ends-inside-a-section"
    passes = analysis.passes(analysis.uninterrupted(tasks), i, set(higher))
    return "within-interrupts" if passes else "within-a-tick"


def worst(tasks, i=None):
    """What is printed, and the status."""
    best = analysis.best_order(tasks)
    if best is None:
        return worst_in(tasks, order_for(tasks, i), i, settings.settings), 3
    return worst_in(tasks, best, i, lambda tasks, order: ""), 0


def worst_at(tasks, order, rows, i=None):
    """The same in an order that a node has."""
    passes = all(analysis.stands(tasks, i, above) for _, i, above in analysis.levels_of(order))
    return worst_in(tasks, order, i, settings.settings), 0 if passes else 3


def worst_in(tasks, order, i, front):
    """What is printed of a task's worst case in an order, of which something stands in front of the list."""
    if not tasks:
        return kernel.release_list(0, [])
    i = whose(tasks, order) if i is None else i
    words, listed = run(tasks, order, i)
    return f"# {tasks[i].name} {words}\n" + front(tasks, order) + kernel.release_list(*listed)


# ---- of a chain
class Aim(NamedTuple):
    task: int
    above: list
    arrival: int
    ready: int
    response: int


def begin_of(tasks, order, responses, chain):
    """When the first job arrives that the bound counts from: each task of the chain has had a job by then, and whatever leads up to
    an aim arrives at time 0 or later; on one clock, where the longest span of a round begins."""
    indexes = chain_bounds.indexes_of(tasks, chain)
    periods = [tasks[i].period for i in indexes]
    begin = max(periods + [max(task.cost, task.jitter) for task in tasks])
    if chain.offsets:
        start, _ = chain_bounds.longest_walk(periods, chain.offsets, behind_in(tasks, order, responses, chain))
        begin = start + max(0, -(-(begin - start) // math.lcm(*periods))) * math.lcm(*periods)
    return begin


def behind_in(tasks, order, responses, chain):
    """How long the parts behind the waits of a chain's tasks are."""
    return [time for _, time in chain_bounds.parts_in(tasks, order, responses, chain)[1::2]]


def aims_of(tasks, order, responses, chain):
    """Of each task of a chain the job that its bound counts: the first one a period later; of each other one a period after one that
    comes a tick too early to read the one before it, on one clock the first that isn't too early; and when the last one's bound
    ends."""
    time, aims = begin_of(tasks, order, responses, chain), []
    offsets = chain.offsets or [None] * len(chain.tasks)
    for i, offset, behind in zip(chain_bounds.indexes_of(tasks, chain), offsets, behind_in(tasks, order, responses, chain)):
        if not aims:
            arrival = time + tasks[i].period
        elif offset is None:
            arrival = time - 1 + tasks[i].period
        else:
            arrival = time + max(offset - time, (offset - time) % tasks[i].period)
        aims.append(Aim(i, order[order.index(i) + 1 :], arrival, arrival + tasks[i].jitter, responses[i]))
        time = arrival + behind
    return aims, time


def windows_of(tasks, aims, i, until):
    """From when and up to when jobs of a task may arrive: of one outside the chain against each aim that it stands above, or
    whose first blocker it is, then of one job."""
    own = [aim for aim in aims if aim.task == i]
    if own:
        return [(own[0].arrival % tasks[i].period, until)]
    windows = []
    for aim in aims:
        if i in aim.above:
            windows.append((aim.ready - tasks[i].jitter, aim.arrival + aim.response))
        elif analysis.blocking_of(tasks, aim.task, set(aim.above)):
            name, number, _ = analysis.first_blocker(tasks, aim.task, set(aim.above))
            if tasks[i].name == name:
                start = aim.ready - tasks[i].sections[number - 1].at - 1
                windows.append((start, start + 1))
    return windows


def arrivals_of(tasks, aims, i, until):
    """As soon as may be, in the first window that isn't over."""
    time, found = 0, []
    while True:
        time = next((max(time, start) for start, stop in windows_of(tasks, aims, i, until) if time < min(stop, until)), until)
        if time >= until:
            return found
        found.append(time)
        time += tasks[i].period


def chain_run(tasks, order, responses, chain):
    """The end and the releases: a job is as late as it may be where it is then ready with an aim, before the end."""
    aims, until = aims_of(tasks, order, responses, chain)
    readies = {aim.ready for aim in aims}
    releases = []
    for i, task in enumerate(tasks):
        for time in arrivals_of(tasks, aims, i, until):
            is_late = time + task.jitter in readies and time + task.jitter < until
            releases.append(kernel.Release(time, task.name, task.jitter if is_late else 0))
    return until, sorted(releases, key=lambda release: release.arrival)


def chain_words(tasks, order, responses, chain):
    """What is said of a chain in an order, and the end and the releases of its run up to the first overrun."""
    bound = None if order is None else chain_bounds.bound_in(tasks, order, responses, chain)
    if bound is None:
        return "no-bound", (0, [])
    if aims_of(tasks, order, responses, chain)[1] > kernel.HORIZON:
        return "past-horizon", (0, [])
    until, releases = chain_run(tasks, order, responses, chain)
    if len(releases) > kernel.RELEASES_MOST:
        return "too-many-releases", (0, [])
    ceilings = analysis.ceilings(tasks, order)
    until, releases, _ = kernel.cut(tasks, order, ceilings, until, releases)
    slices, jobs = kernel.run(tasks, order, ceilings, until, releases)
    starts = {part.job: part.start for part in reversed(slices)}
    words = chain_runs.line_of(tasks, order, responses, chain, starts, jobs, until).split()
    return f"{words[4]} of {bound}", (until, releases)


def chain_lines(tasks, order, responses, chain, front):
    words, listed = chain_words(tasks, order, responses, chain)
    return f"# {chain.name} {words}\n" + front + kernel.release_list(*listed)


def of_chain(tasks, chain):
    """What is printed of a chain, and the status."""
    best = analysis.best_order(tasks)
    if best is None:
        return chain_lines(tasks, None, {}, chain, settings.settings(tasks, order_for(tasks, None))), 3
    return chain_lines(tasks, best, settings.bounds_in(tasks, best), chain, ""), 0


def of_chain_at(tasks, order, chain):
    """The same in an order that a node has."""
    responses = settings.bounds_in(tasks, order)
    status = 3 if None in responses.values() else 0
    return chain_lines(tasks, order, responses, chain, settings.settings(tasks, order)), status
