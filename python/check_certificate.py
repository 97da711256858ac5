#!/usr/bin/env python3
"""Says whether a certificate shows the best order of a task set, or that no order passes.

usage: python/check_certificate.py SET CERT     of one document, with its own `prefer`

It prints what `desk check SET CERT` prints, with its status, and shares nothing with it: Python's
standard library (from 3.11 on), docs/FORMATS.md and docs/DEFINITIONS.md are all that it rests on. It
is to be read from top to bottom by whoever has to believe an answer without believing the program.
A set is one document in TOML 1.0, and what it prefers stands in it, as no word behind `check` does.
One that isn't valid is `refused: set`: which rule it breaks `desk check` says.

Why this suffices. A task passes below others if some time up to its limit covers what it and they
demand till then. Demand grows with time and with each task that comes above: this adds its cost at
least, and no section that it could have blocked with is longer; what timers and interrupts take is
the same in every order. So a chain that climbs from 1 past the limit, each number no more than the
demand of the one before it, leaves no such time, and what can't stand below some tasks can't stand
below more. `best`: each level's number is such a time, and an order better than this has, at the
lowest level where they differ, a task of smaller rank, which the chains refute. `none`: in each
order one member is below all other members, and is refuted. A chain of the set, which hands data
from task to task, gets no older than the sum of its tasks' periods, of what each hands over to the
next, and of the last one's response: a job that arrives so much later than one of the task before
it reads what that one wrote. Where each task reads as it arrives and writes a deadline later, both
are the deadline. `chain` gives no less than this sum by the levels' numbers.
"""
import math
import re
import sys
import tomllib
from types import SimpleNamespace

NAME = "[A-Za-z][A-Za-z0-9_-]{0,23}"
NUMBER = "(?:0|[1-9][0-9]{0,9})"
SET = {"task": list, "prefer": str, "node": dict, "interrupt": list, "chain": list}
NODE = {"job": int, "lock": int, "release": int, "late": int}
INTERRUPT = {"period": int, "cost": int}
CHAIN = {"name": str, "tasks": list, "age": int, "reaction": int, "offsets": list, "writes": str}
MOST_BYTES = 16_777_216
LONGEST = 1_000_000_000
MOST_ARRIVALS = 10_000
TASK = {"name": str, "weight": int, "period": int, "deadline": int, "cost": int, "jitter": int,
        "section": list, "outranks": list}
SECTION = {"locks": list, "at": int, "len": int}


class Refused(Exception):
    """What is printed behind `refused: `."""


def values(table, kinds, **left_out):
    """The values of a table of these keys and no others, each of its kind; some may be left out."""
    table = {**left_out, **table}
    if table.keys() != kinds.keys() or any(type(table[key]) is not kinds[key] for key in kinds):
        raise ValueError
    return SimpleNamespace(**table)


def are_names(words, most):
    """Whether these are so many names at most, all distinct."""
    return len(set(words)) == len(words) <= most and all(re.fullmatch(NAME, it) for it in words)


def sections_of(tables):
    """Sections one of which, without `at`, begins where the one before it ends, the first at 0."""
    sections, end = [], 0
    for table in tables:
        sections.append(values(table, SECTION, at=end))
        end = sections[-1].at + sections[-1].len
    return sections


def task_of(table, node):
    """A task with what the node takes, if its sheet is valid before and after that is put in. Its
    limit is the longest time that serves it, counted from the latest instant at which it may become
    ready; its locks are those of all sections."""
    table = {**table}
    is_above_all = table.get("outranks") == "all"
    if is_above_all:
        table["outranks"] = []
    it = values(table, TASK, weight=0, jitter=0, section=[], outranks=[])
    it.is_above_all = is_above_all
    it.section = sections_of(it.section)
    it.locks = {lock for section in it.section for lock in section.locks}
    check_task(it)
    before = node.job - node.release
    for section in it.section:
        calls = node.lock * len(section.locks)
        section.at, section.len, before = section.at + before, section.len + calls, before + calls
    it.cost, it.jitter, it.timer = it.cost + before, it.jitter + node.late, node.release
    it.limit = it.deadline - it.jitter
    check_task(it)
    if it.cost + it.timer > it.period:
        raise ValueError
    return it


def check_task(it):
    """Refuses a task whose sheet isn't valid."""
    ends = [0, *(section.at + section.len for section in it.section)]
    is_valid = (
        are_names([it.name], 1) and 0 <= it.weight <= 1000 and 1000 <= it.period <= 10_000_000
        and 1 <= it.deadline <= it.period and 1 <= it.cost <= it.period and len(it.section) <= 8
        and all(section.locks and are_names(section.locks, 4) for section in it.section)
        and all(section.at >= end and section.len >= 1 for end, section in zip(ends, it.section))
        and ends[-1] <= it.cost and 0 <= it.jitter < it.deadline
        and are_names(it.outranks, 8) and it.name not in it.outranks
    )  # fmt: skip
    if not is_valid:
        raise ValueError


def chains_of(tables, tasks):
    """The chains of the tasks that these say, each with the lesser of its limits, or none."""
    left_out = {"age": LONGEST, "reaction": LONGEST, "offsets": [], "writes": "finish"}
    chains = [values(table, CHAIN, **left_out) for table in tables]
    names = {it.name for it in tasks}
    is_valid = are_names([it.name for it in chains], 16) and all(
        it.tasks and are_names(it.tasks, 8) and names.issuperset(it.tasks)
        and 1 <= it.age <= LONGEST and 1 <= it.reaction <= LONGEST
        and it.writes in ("finish", "deadline")
        for it in chains
    )  # fmt: skip
    if not is_valid:
        raise ValueError
    for it, table in zip(chains, tables):
        it.limit = min(it.age, it.reaction) if table.keys() & {"age", "reaction"} else None
    check_offsets([it for it, table in zip(chains, tables) if "offsets" in table], tasks)
    return chains


def check_offsets(chains, tasks):
    """Refuses offsets that aren't one for each task, below its period and the same in all chains, and a
    chain of which too many arrivals of its first task come until all arrive as at first."""
    periods, known = {it.name: it.period for it in tasks}, {}
    for it in chains:
        is_valid = len(it.offsets) == len(it.tasks) and all(
            type(offset) is int and 0 <= offset < periods[name] and known.setdefault(name, offset) == offset
            for name, offset in zip(it.tasks, it.offsets)
        )  # fmt: skip
        own = [periods[name] for name in it.tasks]
        if not is_valid or math.lcm(*own) // own[0] > MOST_ARRIVALS:
            raise ValueError


def place_of(name, chains):
    """A task's greatest place from the end of a chain, 1 of the last task; 0 where it is in none."""
    return max((len(names) - names.index(name) for names in chains if name in names), default=0)


def read_set(text):
    """The tasks by rank, which is by weight and then by name, each with what the node takes, if the
    set says it; the interrupts; and the chains. Where deadlines are preferred, a task's weight is the number of
    tasks of a longer limit; where chains are, of those nearer to the end of one, or as near and of a
    longer limit."""
    left_out = {"task": [], "prefer": "weight", "node": {}, "interrupt": [], "chain": []}
    root = values(tomllib.loads(text.decode("utf-8-sig")), SET, **left_out)
    node = values(root.node, NODE, job=0, lock=0, release=0, late=0)
    interrupts = [values(table, INTERRUPT) for table in root.interrupt]
    if not all(0 <= it <= 10_000_000 for it in (node.job, node.lock, node.late)) \
            or not 0 <= node.release <= min(1000, node.job) or len(interrupts) > 8 \
            or not all(100 <= it.period <= 10_000_000 and 0 <= it.cost <= it.period for it in interrupts):
        raise ValueError
    tasks = [task_of(table, node) for table in root.task]
    if text.startswith(b"#% ") or root.prefer not in ("weight", "deadline", "chains") \
            or not are_names([it.name for it in tasks], 32):
        raise ValueError
    chains = chains_of(root.chain, tasks)
    if root.prefer != "weight":
        lists = [it.tasks for it in chains if it.writes == "finish"] if root.prefer == "chains" else []
        wanted = [(place_of(it.name, lists), -it.limit) for it in tasks]
        for it, own in zip(tasks, wanted):
            it.weight = sum(other < own for other in wanted)
    return sorted(tasks, key=lambda it: (it.weight, it.name)), interrupts, chains


def read_certificate(text):
    """The version, `best` or `none`, the levels or members, and what is said of the set's chains. A
    level is its task's name, its number and its reasons; a member is a reason: a name, and a chain
    or the name behind `over`. Of a set's chain a name and a number are said, in version 5."""
    *lines, rest = text.decode("latin-1").split("\n")
    if lines and not re.fullmatch("desk-certificate [1245]", lines[0]):
        raise Refused("BadHead")
    over = f"| over {NAME}" if lines and not lines[0].endswith("1") else ""
    place = 1

    def following(pattern):
        """The parts of the next line, if it is of this pattern; else None."""
        nonlocal place
        found = re.fullmatch(pattern, lines[place]) if place < len(lines) else None
        place += found is not None
        return found and found.groups()

    def wanted(pattern):
        found = following(pattern)
        if found is None:
            raise Refused(f"BadLine {place + 1}" if place < len(lines) else "Truncated")
        return found

    def reason(step, word):
        found = step(f"{word} ({NAME})((?: {NUMBER})+{over})")
        numbers = found and found[1].split()
        return found and (found[0], numbers[1] if numbers[0] == "over" else [*map(int, numbers)])

    claim, count = wanted("(best|none) ([0-9]|[12][0-9]|3[0-2])")
    rows = []
    for k in range(1, int(count) + 1):
        if claim == "none":
            rows.append(reason(wanted, "member"))
        else:
            name, number = wanted(f"level {k} ({NAME}) ({NUMBER})")
            rows.append((name, int(number), [*iter(lambda: reason(following, "fails"), None)]))
    said = []
    while claim == "best" and lines[0].endswith("5") and (found := following(f"chain ({NAME}) ({NUMBER})")):
        said.append((found[0], int(found[1])))
    wanted("end")
    if place < len(lines) or rest:
        raise Refused("Trailing")
    return int(lines[0][-1]), claim, rows, said


def jobs_within(it, time):
    """How many jobs of a task become ready in so long."""
    return -(-(time + it.jitter) // it.period)


def demand(tasks, interrupts, task, above, time):
    """What may execute before the task is done, in so long from the latest instant at which it and
    those above are ready: its cost; one section, the longest, of a task below that names a lock
    which it or one above uses; each job of those above that becomes ready; the timer of each job of
    any task; and each interrupt."""
    used = task.locks.union(*(it.locks for it in above))
    sections = [it for other in tasks if other not in [task, *above] for it in other.section]
    blocking = max((it.len for it in sections if used & {*it.locks}), default=0)
    jobs = sum(jobs_within(it, time) * it.cost for it in above)
    timers = sum(jobs_within(it, time) * it.timer for it in tasks)
    return task.cost + blocking + jobs + timers + sum(-(-time // it.period) * it.cost for it in interrupts)


def must_outrank(task, other):
    """Whether the task must stand above the other one: that it names, or any that isn't above all, too."""
    return not other.is_above_all if task.is_above_all else other.name in task.outranks


def refutes(tasks, interrupts, task, above, reason):
    """Whether a reason shows that the task can't stand below these: one of them that it must
    outrank, or a chain."""
    if isinstance(reason, str):
        return any(it.name == reason and must_outrank(task, it) for it in above)
    steps = zip(reason, reason[1:])
    rises = all(a < b <= demand(tasks, interrupts, task, above, a) for a, b in steps)
    return reason[0] == 1 and rises and max([0, *reason[:-1]]) <= task.limit < reason[-1]


def needed_version(tasks, interrupts, shows_chains):
    """The version that the set needs, if its certificate shows chains or not."""
    if shows_chains:
        return 5
    if interrupts and tasks or any(it.timer for it in tasks):
        return 4
    must_outrank_any = any(must_outrank(it, other) for it in tasks for other in tasks)
    return 2 if must_outrank_any or any(it.jitter for it in tasks) else 1


def bound_of(named, rows, chain):
    """What a chain's parts come to by the numbers of the levels: each task's wait, and before a task
    below the jitter, before one above the response less its cost; at last the response. Of tasks that
    write at their deadlines each wait and deadline. A wait is a period; with offsets the whole is the
    longest that one comes to in a round."""
    places = {row[0]: place for place, row in enumerate(rows)}
    periods, delays = [named[name].period for name in chain.tasks], []
    for name, after in zip(chain.tasks, [*chain.tasks[1:], None]):
        it, response = named[name], rows[places[name]][1] + named[name].jitter
        if chain.writes == "deadline":
            delays.append(it.deadline)
        elif after is None:
            delays.append(response)
        else:
            is_below = places[after] < places[name]
            delays.append(it.jitter if is_below else response - named[after].cost)
    if not chain.offsets:
        return sum(periods) + sum(delays)
    starts = range(chain.offsets[0], chain.offsets[0] + math.lcm(*periods), periods[0])
    return max(span_of(periods, chain.offsets, delays, start) for start in starts)


def span_of(periods, offsets, delays, start):
    """How long after an arrival of the first task what its next job reads is written by the last one:
    each other task reads as it arrives next, at its offset or whole periods later."""
    time = start + periods[0] + delays[0]
    for period, offset, delay in zip(periods[1:], offsets[1:], delays[1:]):
        time = max(offset, time + (offset - time) % period) + delay
    return time - start


def check(tasks, interrupts, chains, version, claim, rows, said):
    """What the certificate shows. Each rule goes over all of it before the next one."""
    named = {it.name: it for it in tasks}
    order = [named.get(row[0]) for row in rows]
    needed = needed_version(tasks, interrupts, claim == "best" and chains)
    if version < needed or version in (4, 5) and version != needed:
        raise Refused("WrongVersion")
    is_short = claim == "best" and len(rows) < len(tasks)
    if None in order or len({it.name for it in order}) < len(rows) or is_short:
        raise Refused("WrongTasks 0")

    def refuse_wrong(level, among, reasons):
        for name, reason in reasons:
            others = [it for it in among if it.name != name]
            if not refutes(tasks, interrupts, named[name], others, reason):
                raise Refused(f"BadChain {level} {name}")

    def better(level):
        """Who would be better there: the tasks above, of smaller rank than the level's, by rank."""
        return [it.name for it in tasks[: tasks.index(order[level - 1])] if it in order[level:]]

    if claim == "none":
        refuse_wrong(0, order, rows)
        if not rows:
            raise Refused("EmptySet")
        return "no order"
    for level, (_, _, reasons) in enumerate(rows, 1):
        refuted = [name for name, _ in reasons]
        if refuted != [it for it in better(level) if it in refuted]:
            raise Refused(f"WrongTasks {level}")
    for level, (_, time, _) in enumerate(rows, 1):
        task, above = order[level - 1], order[level:]
        if not 1 <= time <= task.limit or demand(tasks, interrupts, task, above, time) > time \
                or any(must_outrank(task, it) for it in above):
            raise Refused(f"BadPass {level}")
    for level, (_, _, reasons) in enumerate(rows, 1):
        refuse_wrong(level, order[level - 1 :], reasons)
    for level, (_, _, reasons) in enumerate(rows, 1):
        missing = [it for it in better(level) if it not in [name for name, _ in reasons]]
        if missing:
            raise Refused(f"MissingFail {level} {missing[0]}")
    if [name for name, _ in said] != [it.name for it in chains]:
        raise Refused("WrongChains")
    lines = ["best"]
    for chain, (name, number) in zip(chains, said):
        if number < bound_of(named, rows, chain):
            raise Refused(f"BadAge {name}")
        limit = "" if chain.limit is None else f" {'of' if number <= chain.limit else 'misses'} {chain.limit}"
        lines.append(f"chain {name} {number}{limit}")
    return "\n".join(lines)


def said(set_text, certificate_text):
    """The lines that are printed, and the status."""
    if max(len(set_text), len(certificate_text)) > MOST_BYTES:
        return "refused: InputTooLong", 4
    try:
        them = read_set(set_text)
    except (TypeError, ValueError, RecursionError):
        return "refused: set", 4
    try:
        return check(*them, *read_certificate(certificate_text)), 0
    except Refused as fault:
        return f"refused: {fault}", 5


def bytes_of(path):
    """What a file has, of a longer one than an input may be a byte more than that; where it can't be
    read, one line on standard error and status 7."""
    try:
        with open(path, "rb") as file:
            return file.read(MOST_BYTES + 1)
    except (OSError, ValueError) as error:
        said_of = getattr(error, "strerror", None) or error
        print(f"{path}: can't be opened or read: {said_of}", file=sys.stderr)
        sys.exit(7)


if __name__ == "__main__":
    if sys.argv[1:] in (["--help"], ["-h"]):
        print(__doc__, end="")
        sys.exit(0)
    if len(sys.argv) != 3:
        print(__doc__.split("\n\n")[1], file=sys.stderr)
        sys.exit(2)
    LINE, STATUS = said(*map(bytes_of, sys.argv[1:]))
    print(LINE)
    sys.exit(STATUS)
