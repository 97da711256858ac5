"""What a script says: FORMATS.md, Scripts."""

from typing import NamedTuple

from lines import Faulty, kept_lines, name_in, number_in
from refusals import Refused
from sets import ALL, Interrupt, INTERRUPTS_MOST, is_interrupt, NO_NODE, Node, OVERHEAD_MOST, RELEASE_MOST, Section, Sheet, sheet_fault

TEAMS = 8


class Open(NamedTuple):
    line: int
    draft: int  # its number, counted from 1
    team: int


class Put(NamedTuple):
    line: int
    draft: int
    sheet: Sheet


class Remove(NamedTuple):
    line: int
    draft: int
    name: str


class Found(NamedTuple):
    line: int
    draft: int
    name: str
    other: int  # the draft that is asked, which may be the same


class Test(NamedTuple):
    line: int
    draft: int


class Commit(NamedTuple):
    line: int
    draft: int


class Abandon(NamedTuple):
    line: int
    draft: int


def read_script(data):
    """The rows; the first faulty line decides."""
    rows, opened = [], 0
    for line, text in kept_lines(data):
        try:
            row = read_row(line, text.split(" "), opened)
        except Faulty:
            raise Refused(4, "BadLine", line) from None
        opened += isinstance(row, Open)
        rows.append(row)
    return rows


def read_row(line, words, opened):
    word, *words = words
    if word == "open":
        (team,) = counted(words, 1)
        return Open(line, opened + 1, number_in(team, 1, TEAMS))
    if word == "put":
        draft, *words = counted(words, 6, 99)
        return Put(line, number_in(draft, 1, opened), read_sheet(line, words))
    if word == "remove":
        draft, name = counted(words, 2)
        return Remove(line, number_in(draft, 1, opened), name_in(name))
    if word == "found":
        draft, name, *other = counted(words, 2, 3)
        draft, name = number_in(draft, 1, opened), name_in(name)
        return Found(line, draft, name, number_in(other[0], 1, opened) if other else draft)
    for ending in (Test, Commit, Abandon):
        if word == ending.__name__.lower():
            (draft,) = counted(words, 1)
            return ending(line, number_in(draft, 1, opened))
    raise Faulty


def counted(words, least, most=None):
    if not least <= len(words) <= (most or least):
        raise Faulty
    return words


def read_sheet(line, words):
    name, weight, period, deadline, cost, *rest = words
    jitter = number_in(rest.pop(0)[2:]) if rest and rest[0].startswith("j=") else 0
    over = rest.pop(0)[5:] if rest and rest[0].startswith("over=") else None
    outranks = () if over is None else ALL if over == "*" else tuple(map(name_in, over.split("+")))
    node = rest.pop(0)[5:].split("+") if rest and rest[0].startswith("node=") else None
    node = NO_NODE if node is None else Node(*map(number_in, counted(node, len(NO_NODE))))
    interrupts = rest.pop(0)[4:].split("+") if rest and rest[0].startswith("irq=") else ()
    interrupts = tuple(Interrupt(*map(number_in, counted(it.split(":"), 2))) for it in interrupts)
    numbers = map(number_in, (weight, period, deadline, cost))
    sheet = Sheet(name_in(name), *numbers, tuple(map(read_section, rest)), jitter, outranks, node, interrupts)
    fault = sheet_fault(sheet) or node_fault(sheet)
    if fault:
        raise Refused(4, "line", line, *fault)
    return sheet


def node_fault(sheet):
    """The fault of what the node takes, or of interrupts, if any."""
    if max(sheet.node) > OVERHEAD_MOST or sheet.node.release > RELEASE_MOST:
        return ("BadOverhead",)
    if len(sheet.interrupts) > INTERRUPTS_MOST or not all(map(is_interrupt, sheet.interrupts)):
        return ("BadInterrupt",)
    return ()


def sheet_words(sheet):
    """What a put says of a sheet, as `script` writes it."""
    words = [sheet.name, sheet.weight, sheet.period, sheet.deadline, sheet.cost]
    words += [f"j={sheet.jitter}"] if sheet.jitter else []
    words += [f"over={'*' if sheet.outranks == ALL else '+'.join(sheet.outranks)}"] if sheet.outranks else []
    words += [f"node={'+'.join(map(str, sheet.node))}"] if any(sheet.node) else []
    words += [f"irq={'+'.join(f'{it.period}:{it.cost}' for it in sheet.interrupts)}"] if sheet.interrupts else []
    words += [f"{'+'.join(section.locks)}@{section.at}:{section.len}" for section in sheet.sections]
    return " ".join(map(str, words))


def read_section(word):
    locks, _, place = word.partition("@")
    at, _, length = place.partition(":")
    return Section(tuple(map(name_in, locks.split("+"))), number_in(at), number_in(length))
