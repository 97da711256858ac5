"""Sheets and sets, as DEFINITIONS.md says, and what a TOML document says of them, as FORMATS.md says."""

import re
from typing import NamedTuple

from refusals import Refused
from toml_tree import tree_of

TASKS_MOST = 32
NAME = re.compile(r"[A-Za-z][A-Za-z0-9_-]{0,23}")


def is_name(text):
    """Name: 1 to 24 ASCII letters, digits, `_` and `-`, beginning with a letter."""
    return NAME.fullmatch(text) is not None


class Section(NamedTuple):
    locks: tuple
    at: int
    len: int

    @property
    def end(self):
        return self.at + self.len


class Node(NamedTuple):
    """What the node takes of a job, of a lock, of whoever executes when a timer comes, and how late a job may begin."""

    job: int = 0
    lock: int = 0
    release: int = 0
    late: int = 0


NO_NODE = Node()


class Interrupt(NamedTuple):
    """One that no task asks for."""

    period: int
    cost: int


# What a sheet says that outranks all others but those that say so, too.
ALL = "all"


class Sheet(NamedTuple):
    name: str
    weight: int
    period: int
    deadline: int
    cost: int
    sections: tuple = ()
    jitter: int = 0
    outranks: tuple = ()  # of names, or ALL
    node: Node = NO_NODE  # what of its numbers is the node's, and what its timer takes
    interrupts: tuple = ()  # those on its account
    following: frozenset = frozenset()  # the places of sections that don't say where they begin

    @property
    def rank(self):
        return self.weight, self.name

    @property
    def limit(self):
        """The longest time from the latest release that serves the task."""
        return self.deadline - self.jitter

    @property
    def last_end(self):
        return self.sections[-1].end if self.sections else 0

    @property
    def named(self):
        """The names of tasks that it outranks."""
        return () if self.outranks == ALL else self.outranks

    @property
    def overhead(self):
        """What of the cost is the node's."""
        return max(0, self.node.job - self.node.release) + sum(self.calls(section) for section in self.sections)

    def calls(self, section):
        """What of a section is the node's."""
        return self.node.lock * len(section.locks)

    def must_outrank(self, other):
        return other.outranks != ALL if self.outranks == ALL else other.name in self.outranks


def sheet_fault(sheet):
    """The first fault of a sheet, as a name and the number of its section, if it is of one; else ()."""
    if sheet.weight > 1000:
        return ("BadWeight",)
    if not 1000 <= sheet.period <= 10_000_000:
        return ("BadPeriod",)
    if sheet.deadline == 0:
        return ("DeadlineZero",)
    if sheet.deadline > sheet.period:
        return ("DeadlinePastPeriod",)
    if sheet.cost == 0:
        return ("CostZero",)
    if sheet.cost > sheet.period:
        return ("CostPastPeriod",)
    if len(sheet.sections) > 8:
        return ("TooManySections",)
    end = 0
    for number, section in enumerate(sheet.sections, 1):
        if len(section.locks) == 0:
            return ("NoLocks", number)
        if len(section.locks) > 4:
            return ("TooManyLocks", number)
        if len(set(section.locks)) < len(section.locks):
            return ("LockTwice", number)
        if section.len == 0:
            return ("LenZero", number)
        if section.at < end:
            return ("Overlap", number)
        if section.end > sheet.cost:
            return ("SectionPastCost", number)
        end = section.end
    if sheet.jitter >= sheet.deadline:
        return ("BadJitter",)
    if len(sheet.named) > 8:
        return ("TooManyOutranks",)
    if len(set(sheet.named)) < len(sheet.named):
        return ("OutranksTwice",)
    if sheet.name in sheet.named:
        return ("OutranksSelf",)
    return ()


def by_rank(sheets):
    """A task set: a task's index is its place."""
    return tuple(sorted(sheets, key=lambda sheet: sheet.rank))


def by_limits(tasks):
    """By deadlines, less jitter: the set in which each weight is the number of tasks of a longer limit."""
    longer = lambda sheet: sum(other.limit > sheet.limit for other in tasks)
    return by_rank(sheet._replace(weight=longer(sheet)) for sheet in tasks)


def by_chains(tasks, chains):
    """By chains, each the names of its tasks: each weight is the number of tasks of a lesser place from a chain's end, or of the
    same and a longer limit."""
    place = lambda sheet: max((len(names) - names.index(sheet.name) for names in chains if sheet.name in names), default=0)
    wanted = {sheet.name: (place(sheet), -sheet.limit) for sheet in tasks}
    lower = lambda sheet: sum(wanted[other.name] < wanted[sheet.name] for other in tasks)
    return by_rank([sheet._replace(weight=lower(sheet)) for sheet in tasks])


PREFERENCES = ("weight", "deadline", "chains")
OVERHEAD_MOST, RELEASE_MOST, PERIOD_MOST, INTERRUPT_LEAST, INTERRUPTS_MOST = 10_000_000, 1000, 10_000_000, 100, 8


def read_node(table):
    if not isinstance(table, dict):
        raise Refused(4, "WrongKind", 0, 0, "node")
    if set(table) - set(Node._fields):
        raise Refused(4, "UnknownOverhead")
    for key in Node._fields:
        if not is_number(table.get(key, 0)):
            raise Refused(4, "WrongKind", 0, 0, key)
    node = Node(**table)
    for key, number in zip(Node._fields, node):
        if number > (min(RELEASE_MOST, node.job) if key == "release" else OVERHEAD_MOST):
            raise Refused(4, "BadOverhead", key)
    return node


def read_interrupts(tables):
    if not are(tables, dict):
        raise Refused(4, "WrongKind", 0, 0, "interrupt")
    for number, table in enumerate(tables, 1):
        if set(table) != set(Interrupt._fields) or not all(map(is_number, table.values())) or not is_interrupt(Interrupt(**table)):
            raise Refused(4, "BadInterrupt", number)
    if len(tables) > INTERRUPTS_MOST:
        raise Refused(4, "TooManyInterrupts")
    return tuple(Interrupt(**table) for table in tables)


def is_interrupt(interrupt):
    return INTERRUPT_LEAST <= interrupt.period <= PERIOD_MOST and interrupt.cost <= interrupt.period


def padded_sheet(sheet, node):
    """A sheet with what the node takes, which may not be a valid one."""
    sheet = sheet._replace(node=node)
    calls = [sheet.calls(section) for section in sheet.sections]
    before = node.job - node.release  # its timer is in no cost: it takes of whoever executes
    sections = tuple(
        section._replace(at=section.at + before + sum(calls[:place]), len=section.len + calls[place])
        for place, section in enumerate(sheet.sections)
    )
    return sheet._replace(cost=sheet.cost + sheet.overhead, jitter=sheet.jitter + node.late, sections=sections)


def padded(sheets, node, interrupts=()):
    """The set with what the node takes, if there is one, and interrupts on the account of the first task by rank; or the
    first task, by rank, that has no room for the node."""
    out = list(by_rank(sheets))
    for place, sheet in enumerate(out):
        if node is not None:
            out[place] = padded_sheet(sheet, node)
            if out[place].cost + node.release > sheet.period:
                raise Refused(4, "PaddedCost", sheet.name)
            if out[place].jitter >= sheet.deadline:
                raise Refused(4, "PaddedJitter", sheet.name)
            assert not sheet_fault(out[place])
    if out:
        out[0] = out[0]._replace(interrupts=interrupts)
    return out


def read_whole(tree):
    """What a document's tree prefers, and its node, if it says so, and its interrupts."""
    prefer = tree.get("prefer")
    if prefer is not None and not isinstance(prefer, str):
        raise Refused(4, "WrongKind", 0, 0, "prefer")
    if prefer is not None and prefer not in PREFERENCES:
        raise Refused(4, "BadPreference")
    node = read_node(tree["node"]) if "node" in tree else None
    interrupts = read_interrupts(tree.get("interrupt", []))
    if not are(tree.get("chain", []), dict):
        raise Refused(4, "WrongKind", 0, 0, "chain")
    return prefer, node, interrupts


def read_document(data):
    """What a document prefers, and its node, if it says so, its interrupts, and its sheets, as they stand; or the first
    refusal."""
    tree = tree_of(data)
    if set(tree) - {"task", "prefer", "node", "interrupt", "chain"}:
        raise Refused(4, "UnknownKey", 0, 0)
    tables = tree.get("task", [])
    if not are(tables, dict):
        raise Refused(4, "WrongKind", 0, 0, "task")
    prefer, node, interrupts = read_whole(tree)
    sheets = [read_task(table, number) for number, table in enumerate(tables, 1)]
    names = [sheet.name for sheet in sheets]
    for number, name in enumerate(names, 1):
        if name in names[: number - 1]:
            raise Refused(4, "SameName", number)
    if len(sheets) > TASKS_MOST:
        raise Refused(4, "TooManyTasks")
    return prefer, node, interrupts, sheets


def are(value, kind):
    return isinstance(value, list) and all(isinstance(part, kind) for part in value)


def is_number(value):
    """A TOML integer that isn't negative."""
    return type(value) is int and value >= 0


KINDS = {
    "name": lambda value: isinstance(value, str),
    "weight": is_number,
    "period": is_number,
    "deadline": is_number,
    "cost": is_number,
    "section": lambda value: are(value, dict),
    "jitter": is_number,
    "outranks": lambda value: value == ALL or are(value, str),
    "locks": lambda value: are(value, str),
    "at": is_number,
    "len": is_number,
}
TASK_KEYS = ("name", "weight", "period", "deadline", "cost", "section", "jitter", "outranks")
NEEDED_KEYS = ("name", "period", "deadline", "cost")
SECTION_KEYS = ("locks", "at", "len")
NEEDED_SECTION_KEYS = ("locks", "len")


def check_keys(table, task, section, allowed, needed):
    if set(table) - set(allowed):
        raise Refused(4, "UnknownKey", task, section)
    for key in needed:
        if key not in table:
            raise Refused(4, "MissingKey", task, section, key)
    for key in allowed:
        if key in table and not KINDS[key](table[key]):
            raise Refused(4, "WrongKind", task, section, key)


def read_sections(tables):
    """A section without `at` begins where the one before it ends, the first at 0."""
    sections, end = [], 0
    for part in tables:
        sections.append(Section(tuple(part["locks"]), part.get("at", end), part["len"]))
        end = sections[-1].end
    return tuple(sections)


def read_task(table, task):
    check_keys(table, task, 0, TASK_KEYS, NEEDED_KEYS)
    tables = table.get("section", [])
    for number, part in enumerate(tables, 1):
        check_keys(part, task, number, SECTION_KEYS, NEEDED_SECTION_KEYS)
    sections = read_sections(tables)
    sheet = Sheet(
        *(table.get(key, 0) for key in ("name", "weight", "period", "deadline", "cost")),
        sections,
        table.get("jitter", 0),
        ALL if table.get("outranks") == ALL else tuple(table.get("outranks", ())),
        following=frozenset(place for place, part in enumerate(tables) if "at" not in part),
    )
    if not is_name(sheet.name):
        raise Refused(4, "BadName", task, 0)
    for number, section in enumerate(sections, 1):
        if not all(map(is_name, section.locks)):
            raise Refused(4, "BadName", task, number)
    if not all(map(is_name, sheet.named)):
        raise Refused(4, "BadName", task, 0)
    fault = sheet_fault(sheet)
    if fault:
        raise Refused(4, fault[0], task, *fault[1:])
    return sheet
