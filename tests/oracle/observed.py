"""Traces, and what they show of a set: DEFINITIONS.md, A node observed; FORMATS.md, Traces, observe."""

from typing import NamedTuple

import analysis
import chain_traces
import settings
from lines import Faulty, kept_lines, name_in, number_in, read_lines
from refusals import Refused

SLICES_MOST, JOBS_MOST = 2**32, 2**32
TOLERANCE_MOST = 60_000_000


class Slice(NamedTuple):
    start: int
    stop: int
    name: str
    priority: int | None = None


class Job(NamedTuple):
    name: str
    arrival: int
    finish: int | None
    ready: int | None = None


def read_trace(data):
    """The settings in front, the slices, each with the number of its line, and the jobs."""
    said, lines = settings.in_front(kept_lines(data))
    rows = list(zip((number for number, _ in lines), read_lines(lines, read_row)))
    slices = [(line, row) for line, row in rows if isinstance(row, Slice)]
    jobs = [(line, row) for line, row in rows if isinstance(row, Job)]
    for (_, before), (line, row) in zip(slices, slices[1:]):
        if row.start < before.stop:
            raise Refused(4, "SliceOverlap", line)
    for (_, before), (line, row) in zip(jobs, jobs[1:]):
        if row.arrival < before.arrival:
            raise Refused(4, "JobUnsorted", line)
    if len(slices) > SLICES_MOST or len(jobs) > JOBS_MOST:
        raise Refused(4, "TooManyLines")
    return said, slices, [job for _, job in jobs]


def read_row(words):
    if len(words) not in (3, 4, 5) or len(words) == 5 and words[0] != "job":
        raise Faulty
    if len(words) > 3 and words[0] == "job":
        name, arrival = name_in(words[1]), number_in(words[2])
        finish = None if words[3] == "-" else number_in(words[3], arrival)
        ready = number_in(words[4], arrival) if len(words) == 5 else None
        if None not in (ready, finish) and ready > finish:
            raise Faulty
        return Job(name, arrival, finish, ready)
    if len(words) == 4 and not words[3].startswith("@"):
        raise Faulty
    row = Slice(*(number_in(word) for word in words[:2]), name_in(words[2]), *(number_in(word[1:]) for word in words[3:]))
    if row.start >= row.stop:
        raise Faulty
    return row


def common(part, since, until):
    """How much of a slice lies between two times."""
    return max(0, min(part.stop, until) - max(part.start, since))


class Seen:
    """What is seen of a job; `owned` are all slices, each with the number of its job; `taken` says what timers and interrupts
    may take of a time; `ranks` are the priorities at which it may run, its thread's first."""

    def __init__(self, number, jobs, owned, end, taken, task, levels, blocking, bound, ranks):
        job = jobs[number]
        self.job, self.task, self.bound, self.levels, self.number = job, task, bound, levels, ranks[0]
        ran = [part.priority for part, owner in owned if owner == number and part.priority is not None]
        self.strays = [priority for priority in ran if priority not in ranks]
        earlier = [other for other in jobs[:number] if other.name == job.name]
        self.gap = job.arrival - earlier[-1].arrival if earlier else None
        self.closest = task.period if earlier and earlier[-1].ready is not None else max(0, task.period - task.jitter)
        self.delay = None if job.ready is None else job.ready - job.arrival
        until = end if job.finish is None else job.finish
        self.lasted = until - job.arrival
        self.executed = sum(part.stop - part.start for part, owner in owned if owner == number)
        since = job.arrival + task.jitter if job.ready is None else job.ready
        waits = [(part.name, common(part, since, until)) for part, _ in owned if common(part, since, until) > 0]
        self.below = [(name, time) for name, time in waits if name in levels and levels[name] < levels[job.name]]
        self.foreign = [(name, time) for name, time in waits if name not in levels]
        self.idle = max(0, until - since) - sum(time for _, time in waits)
        self.may_execute = task.cost + taken(self.lasted)
        self.may_be_taken = taken(max(0, until - since))
        self.may_be_blocked = blocking + self.may_be_taken

    def own(self, tolerance):
        """A line for each promise that the job, its thread's settings or its timer breaks."""
        at = f"{self.job.name} {self.job.arrival}"
        past = lambda time, most: time - most > tolerance
        limit = lambda most: f" of {most}" if most > 0 else ""
        if self.strays:
            yield f"priority {at} {self.strays[0]} of {self.number}"
        if past(self.executed, self.may_execute):
            yield f"cost {at} {self.executed} of {self.may_execute}"
        if self.gap is not None and past(self.closest, self.gap):
            yield f"period {at} {self.gap} of {self.closest}"
        if self.delay is not None and past(self.delay, self.task.jitter):
            yield f"late {at} {self.delay} of {self.task.jitter}"

    def waits(self, tolerance):
        """A line for each promise that is broken while it waited."""
        at = f"{self.job.name} {self.job.arrival}"
        past = lambda time, most: time - most > tolerance
        limit = lambda most: f" of {most}" if most > 0 else ""
        if past(total(self.below), self.may_be_blocked):
            culprits = ", ".join(f"{name} {time}" for name, time in self.culprits())
            yield f"blocked {at} {total(self.below)} of {self.may_be_blocked} by {culprits}"
        if past(total(self.foreign), self.may_be_taken):
            yield f"foreign {at} {total(self.foreign)}{limit(self.may_be_taken)} by {self.stranger()}"
        left = max(0, self.may_be_taken - total(self.foreign))
        if past(self.idle, left):
            yield f"idle {at} {self.idle}{limit(left)}"

    def late(self, tolerance):
        """The line of its bound."""
        at = f"{self.job.name} {self.job.arrival}"
        if self.lasted - self.bound > tolerance:
            yield f"open {at}" if self.job.finish is None else f"bound {at} {self.lasted} of {self.bound}"

    def culprits(self):
        """The tasks below that executed while it waited, and for how long, the longest first."""
        return longest(self.below, self.levels)

    def stranger(self):
        """The thread that isn't the set's which executed longest while it waited, of equals the first."""
        names = list(dict.fromkeys(name for name, _ in self.foreign))
        return max(names, key=lambda name: total(share for share in self.foreign if share[0] == name))

    def costs_others(self, tolerance):
        """For how long others may wait for it who need not have."""
        too_soon = self.gap is not None and self.closest - self.gap > tolerance
        late = 0 if self.delay is None else self.delay - self.task.jitter
        return max(0, self.lasted if self.strays else 0, self.executed if too_soon else 0, self.executed - self.may_execute, late)

    def delays(self, other, blocks, least, tolerance):
        """Whether it may have delayed another job, or itself, or blocked it, for so long at least."""
        ends = lambda one: one.job.arrival + one.lasted
        named = other.culprits() if total(other.below) - other.may_be_blocked > 0 else []
        own, others = self.levels[self.job.name], other.levels[other.job.name]
        stands = (own == others if blocks else own >= others) or self.job.name in [name for name, _ in named]
        overlaps = self.job.arrival < ends(other) and other.job.arrival < ends(self)
        return overlaps and stands and least <= self.costs_others(tolerance)


def cause(line):
    """The words by which a line is named as a cause."""
    return " after " + " ".join(line.split(" ")[:3])


def broken_lines(seen, tolerance):
    """What is broken: what jobs break themselves, what follows from nothing that is known, and what follows from something."""
    own = [(one, line) for one in seen for line in one.own(tolerance)]
    causes = [(one, next(one.own(tolerance))) for one in dict.fromkeys(one for one, _ in own)]
    first, behind = [], []
    for one in seen:
        named = lambda blocks, least: next((cause(line) for other, line in causes if other.delays(one, blocks, least, tolerance)), "")
        waits = list(one.waits(tolerance))
        past = total(one.below) - one.may_be_blocked - tolerance
        follows = {line: named(True, past) if line.startswith("blocked ") else "" for line in waits}
        for line in one.late(tolerance):
            alone = named(False, one.lasted - one.bound - tolerance)
            follows[line] = alone or (cause(waits[0]) if waits else named(False, 0))
        first += [line for line, why in follows.items() if not why]
        behind += [line + why for line, why in follows.items() if why]
    return [line for _, line in own] + first + behind


def longest(shares, levels):
    """For how long each executed, the longest first, of equals the lower."""
    each = {name: total(share for share in shares if share[0] == name) for name, _ in shares}
    return sorted(each.items(), key=lambda one: (-one[1], levels[one[0]]))


def total(shares):
    return sum(time for _, time in shares)


def owner_of(part, jobs):
    """The number of the first job that a slice lies in."""
    for number, job in enumerate(jobs):
        if job.name == part.name and job.arrival <= part.start and (job.finish is None or part.stop <= job.finish):
            return number
    return None


def ranks_of(task, numbers, tasks):
    """The priorities at which a task may run: its thread's, and the ceilings of its locks."""
    locks = {lock for section in task.sections for lock in section.locks}
    users = lambda lock: [other.name for other in tasks if any(lock in section.locks for section in other.sections)]
    return [numbers[task.name], *(max(numbers[name] for name in users(lock)) for lock in locks)]


def observe(tasks, order, numbers, slices, jobs, tolerance, is_jobless):
    """What is printed of a trace, an order that passes being given with the numbers of its threads, and the status."""
    levels = {tasks[i].name: level for level, i, _ in analysis.levels_of(order)}
    owned = []
    for line, part in slices:
        owned.append((part, owner_of(part, jobs)))
        if part.name in levels and owned[-1][1] is None:
            raise Refused(4, "NoJob", line)
    end = max([part.stop for part, _ in owned] + [job.arrival if job.finish is None else job.finish for job in jobs], default=0)
    promised = {
        tasks[i].name: (
            tasks[i],
            levels,
            analysis.blocking_of(tasks, i, above),
            analysis.response_of(tasks, i, above),
            ranks_of(tasks[i], numbers, tasks),
        )
        for _, i, above in analysis.levels_of(order)
    }
    taken = lambda time: analysis.interrupts_within(tasks, time)
    seen = [Seen(k, jobs, owned, end, taken, *promised[job.name]) for k, job in enumerate(jobs) if job.name in promised]
    lines = [task_line(task, bound, [one for one in seen if one.task is task]) for task, _, _, bound, _ in promised.values()]
    named = {one.job.name for one in seen}
    missing = [f"jobless {name}" for name in promised if name not in named and not is_jobless]
    broken = broken_lines(seen, tolerance)
    bounds = {i: promised[tasks[i].name][3] for i in order}
    links, is_late = chain_traces.lines_of(tasks, order, bounds, owned, jobs, seen, end, tolerance)
    is_no = missing or broken or is_late
    return "".join(line + "\n" for line in lines + missing + broken + links), 3 if is_no else 0


def task_line(task, bound, seen):
    executed = max((one.executed for one in seen), default=0)
    gap = min((one.gap for one in seen if one.gap is not None), default="-")
    response = max((one.lasted for one in seen if one.job.finish is not None), default="-")
    return f"task {task.name} {len(seen)} {executed} {task.cost} {gap} {task.period} {response} {bound}"
