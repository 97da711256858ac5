"""How far each number may go, and all execution at once: DEFINITIONS.md, Costs, numbers, factors; FORMATS.md, limits."""

import functools
from typing import NamedTuple

import analysis
from analysis import is_feasible
from refusals import Refused
from sets import INTERRUPT_LEAST, OVERHEAD_MOST, padded, RELEASE_MOST

PERIOD_LEAST, PERIOD_MOST = 1000, 10_000_000


class Number(NamedTuple):
    """A number of a task; a length is that of the section at a place from 0."""

    kind: str
    section: int = 0

    def words(self):
        return f"section {self.section + 1} len" if self.kind == "len" else self.kind

    def value(self, task):
        return task.sections[self.section].len if self.kind == "len" else getattr(task, self.kind)

    def part(self, task):
        """What of it is the node's."""
        return {"cost": task.overhead, "len": task.calls(task.sections[self.section]) if self.kind == "len" else 0,
                "jitter": task.node.late}.get(self.kind, 0)  # fmt: skip

    def own(self, task, value):
        """What of a value is the task's own; None where none is left."""
        own = value - self.part(task)
        return None if own < (1 if self.kind in ("cost", "len") else 0) else own

    def taken_along(self):
        """The number that another value of this one may take along."""
        return {"period": Number("deadline"), "deadline": Number("period")}.get(self.kind)

    def held_by(self, task, value):
        """What holds the number at a value past which the task's sheet may have none; or None."""
        if value != self.easiest_first(task)[-1]:
            return None
        if self.kind == "period":
            return "cost" if value == task.cost + task.node.release else "jitter" if value == task.jitter + 1 else PERIOD_LEAST
        if self.kind == "len":
            behind = self.last_along(task) + 1
            return f"section {behind + 1}" if task.sections[behind:] else "cost"
        return {"cost": "period", "deadline": "jitter", "jitter": "deadline"}[self.kind]

    def easiest_first(self, task):
        """The values that the task's sheet may have, from the one with which most passes on."""
        if self.kind == "cost":
            return range(max(1, task.last_end), task.period - task.node.release + 1)
        if self.kind == "period":
            return range(PERIOD_MOST, max(PERIOD_LEAST, task.cost + task.node.release, task.jitter + 1) - 1, -1)
        if self.kind == "deadline":
            return range(PERIOD_MOST, task.jitter, -1)
        if self.kind == "jitter":
            return range(task.deadline)
        last = self.last_along(task)
        end = task.sections[last + 1].at if task.sections[last + 1 :] else task.cost
        return range(1, self.value(task) + end - task.sections[last].end + 1)

    def last_along(self, task):
        """The place of the last section that moves along with a length: those behind it that don't say where they begin do,
        up to the first that says so."""
        last = self.section
        while last + 1 in task.following:
            last += 1
        return last

    def with_value(self, task, value):
        """A period shorter than the deadline takes it along, and a deadline later than the period that."""
        if self.kind == "period":
            return task._replace(period=value, deadline=min(task.deadline, value))
        if self.kind == "deadline":
            return task._replace(deadline=value, period=max(task.period, value))
        if self.kind == "len":
            sections = list(task.sections)
            more = value - self.value(task)
            sections[self.section] = sections[self.section]._replace(len=value)
            for place in range(self.section + 1, self.last_along(task) + 1):
                sections[place] = sections[place]._replace(at=sections[place].at + more)
            return task._replace(sections=tuple(sections))
        return task._replace(**{self.kind: value})


def numbers_of(task):
    lengths = [Number("len", place) for place in range(len(task.sections))]
    return [Number("cost"), Number("period"), Number("deadline"), Number("jitter"), *lengths]


def growing_of(task):
    """Those of which more asks more at the same period and deadline."""
    return [number for number in numbers_of(task) if number.kind not in ("period", "deadline")]


def numbered(tasks, i, number, value):
    """The set with another value of a number; all else stays, and so do the ranks."""
    return tasks[:i] + (number.with_value(tasks[i], value),) + tasks[i + 1 :]


def last_that(values, holds):
    """The last of some values that holds, where each before it does, too; None where the first doesn't."""
    low, high = -1, len(values) - 1  # the place of one that holds, if any, and of the last that may
    if high < 0 or not holds(values[0]):
        return None
    low = 0
    while low < high:
        middle = (low + high + 1) // 2
        low, high = (middle, high) if holds(values[middle]) else (low, middle - 1)
    return values[low]


def furthest(tasks, i, number, does_pass=is_feasible):
    """The furthest value of a number with which the set does pass; or None."""
    return last_that(number.easiest_first(tasks[i]), lambda value: does_pass(numbered(tasks, i, number, value)))


def written(tasks, task, number, value):
    """A value that may be written: of a task on a clock, by some chain's offsets, one with which its period stays."""
    is_clocked = any(chain.offsets and task.name in chain.tasks for chain in tasks.chains)
    stays = value is None or number.with_value(task, value).period == task.period
    return None if is_clocked and not stays else value


# Numbers that are no task's own


class Common(NamedTuple):
    """A number of the interrupts or of the node, of a set that has tasks."""

    words: str
    value: int
    easiest_first: range
    put: object  # what the documents say with a value of it
    held: object  # what holds it at a value past which they may have none; or None


def common_numbers(tasks):
    sheets, node, interrupts = tasks.written
    numbers = []
    for place, (interrupt, (team, own)) in enumerate(zip(interrupts, tasks.sources)):
        words = f"{team} interrupt {own}" if team else f"interrupt {own}"

        def put(key, value, place=place, interrupt=interrupt):
            return sheets, node, (*interrupts[:place], interrupt._replace(**{key: value}), *interrupts[place + 1 :])

        period, cost = interrupt
        ends = "cost" if cost >= INTERRUPT_LEAST else str(INTERRUPT_LEAST)
        for key, value, values, end in [
            ("cost", cost, range(period + 1), "period"),
            ("period", period, range(PERIOD_MOST, max(INTERRUPT_LEAST, cost) - 1, -1), ends),
        ]:
            held = lambda most, values=values, end=end: end if most == values[-1] else None
            numbers.append(Common(f"{words} {key}", value, values, functools.partial(put, key), held))
    for key in ("job", "lock", "release", "late") if node is not None and any(node) else ():
        put = lambda other, key=key: (sheets, node._replace(**{key: other}), interrupts)
        values = range(node.release if key == "job" else 0, (RELEASE_MOST if key == "release" else OVERHEAD_MOST) + 1)
        if key == "release":
            values = values[: node.job + 1]
        held = functools.partial(held_node, key, node, values, put)
        numbers.append(Common(f"node {key}", getattr(node, key), values, put, held))
    return numbers


def held_node(key, node, values, put, most):
    if most == values[-1]:
        return "job" if key == "release" and most == node.job else str(most)
    try:
        padded(*put(most + 1))
    except Refused as refusal:
        fault, name = refusal.words
        return f"{name} {'period' if fault == 'PaddedCost' else 'deadline'}"
    return None


def furthest_common(tasks, number, does_pass):
    """The furthest value of such a number with which the tasks, each at its place, do pass; or None."""

    def passes(value):
        try:
            padded_by_name = {sheet.name: sheet for sheet in padded(*number.put(value))}
        except Refused:
            return False
        return does_pass(tuple(padded_by_name[task.name] for task in tasks))

    return last_that(number.easiest_first, passes)


# All sections of a lock at once


def first_sights(tasks):
    """The locks, each once, by tasks, sections and as written."""
    return list(dict.fromkeys(lock for task in tasks for section in task.sections for lock in section.locks))


def longest_on(tasks, lock):
    """What the longest section of a lock takes of its own; 0 where none takes anything."""
    own = [part.len - task.calls(part) for task in tasks for part in task.sections if lock in part.locks]
    return max([0, *own])


def cut(tasks, lock, most):
    """The set, with no section of a lock longer of its own; those that don't say where they begin move along."""
    return tuple(task._replace(sections=tuple(shortened(task, lock, most))) for task in tasks)


def shortened(task, lock, most):
    less = 0
    for place, part in enumerate(task.sections):
        less = less if place in task.following else 0
        length = min(part.len, most + task.calls(part)) if lock in part.locks else part.len
        yield part._replace(at=max(0, part.at - less), len=length)
        less += part.len - length


def most_on(tasks, lock, does_pass=is_feasible):
    """The most that each section of a lock may take for the set to pass, up to what the longest takes; or None."""
    return last_that(range(1, longest_on(tasks, lock) + 1), lambda most: does_pass(cut(tasks, lock, most)))


# All execution at once


def passes_at(tasks, i, above, permille):
    """Whether some time within the limit covers so many thousandths of the demand there: each that is tried is the first
    that covers what the one before it has to."""
    t = 1
    while t <= tasks[i].limit:
        need = -(-analysis.demand_of(tasks, i, above, t) * permille // 1000)
        if need <= t:
            return True
        t = need
    return False


def stands_at(tasks, i, above, permille):
    return not analysis.bound_by(tasks, i, above) and passes_at(tasks, i, above, permille)


def left_at(tasks, permille):
    """The tasks that are in the way of every order: what is left once each that may stand below the others is placed."""
    left = set(range(len(tasks)))
    while placed := [i for i in left if stands_at(tasks, i, left - {i}, permille)]:
        left.remove(placed[0])
    return left


def is_feasible_at(tasks, permille):
    return not left_at(tasks, permille)


def is_passing_at(tasks, order, permille):
    return all(stands_at(tasks, i, set(order[level + 1 :]), permille) for level, i in enumerate(order))


def factor(tasks, does_pass=is_feasible_at):
    """The greatest factor, in thousandths, with which the set does pass; or None."""
    most = min(1000 * task.limit // task.cost for task in tasks)
    return last_that(range(1, most + 1), lambda permille: does_pass(tasks, permille))


def first_to_fail(tasks, permille):
    """The task that fails first with a factor with which no order passes."""
    left = left_at(tasks, permille)
    unbound = [i for i in sorted(left) if not analysis.bound_by(tasks, i, left - {i})]
    return max(unbound, key=lambda i: tasks[i].limit)
