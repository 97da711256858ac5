"""The commands of `desk` from Python, over its shared library: text in, values out.

>>> import desk
>>> SHEETS = [desk.Task("lo", 100_000, 100_000, 20_000, sections=[desk.Section(["m"], 0, 4000)]),
...           desk.Task("hi", 10_000, 10_000, 1000, sections=[desk.Section(["m"], 0, 200)])]
>>> answer = desk.admit(SHEETS)
>>> [(it.level, it.task, it.response) for it in answer.levels]
[(1, 'lo', 23000), (2, 'hi', 5000)]

`str` of an answer is what `desk` prints:

>>> print(answer, end="")
admitted 2
1 lo 23000
2 hi 5000

A set is a document, such as a file has, or tasks, which write one. Only `desk` says whether it is
valid. By deadlines:

>>> SET = desk.toml(SHEETS, prefer="deadline")
>>> SET.splitlines()[:3]
['prefer = "deadline"', '[[task]]', 'name = "lo"']
>>> len(desk.admit(SET).levels)
2

With what the node itself takes of a job and of a lock, what of a job's part its timer takes of
whoever executes, how late a job may begin, and the node's ticks:

>>> padded = desk.admit(desk.toml(SHEETS, node=desk.Node(job=20, lock=2, late=15)))
>>> [(it.task, it.response) for it in padded.levels]
[('lo', 23103), ('hi', 5039)]
>>> taken = desk.toml(SHEETS, node=desk.Node(20, 2, 15, 5), interrupts=[desk.Interrupt(4000, 17)])
>>> [(it.task, it.response) for it in desk.admit(taken).levels]
[('lo', 23205), ('hi', 5078)]

A no is a value, too, and is false where a yes is true. A refused input is an exception, with the
line that `desk` prints and a sentence:

>>> no = desk.admit([desk.Task("a", 10_000, 10_000, 6000), desk.Task("b", 10_000, 10_000, 6000)])
>>> no, bool(no)
(Infeasible(tasks=('a', 'b')), False)
>>> desk.admit([desk.Task("a", 10_000, 20_000, 6000)])
Traceback (most recent call last):
desk.Refused: refused: DeadlinePastPeriod 1: set: line 1, task 1 (a): the deadline is above the period: deadline 20000, period 10000

The library is the file that the variable DESK_LIBRARY names, else `libdesk.so` beside this file or
in ../lib, else the system's. All times are whole microseconds. Several threads may call the
functions at once. docs/FORMATS.md has the rest. `python3 -m doctest python/desk.py` runs these
examples.
"""
from __future__ import annotations

import ctypes
import json
import os
import re
from collections.abc import Iterable, Mapping, Sequence
from dataclasses import dataclass, field, replace
from pathlib import Path

Text = str | bytes


class Refused(ValueError):
    """An input was refused: `line` is what `desk` prints, `status` its exit status, `fields` are the
    line's words, and `sentence` is what `desk` tells a person: which input, where, and why."""

    def __init__(self, line: str, status: int, sentence: str):
        super().__init__(line, status, sentence)
        self.line, self.status, self.sentence = line, status, sentence
        self.fields = tuple(line.removeprefix("refused: ").split())

    def __str__(self) -> str:
        return f"{self.line}: {self.sentence}" if self.sentence else self.line


class OutOfMemory(MemoryError):
    """The library's memory ran out."""


@dataclass(frozen=True)
class Section:
    """A critical section: the locks of a job from `at` on, for `len` of its execution. Without `at`
    it begins where the section before it ends, the first at 0."""

    locks: Sequence[str]
    at: int | None = None
    len: int = 0  # which no set may have


@dataclass(frozen=True)
class Task:
    """A task as its sheet has it."""

    name: str
    period: int
    deadline: int
    cost: int
    weight: int = 0
    jitter: int = 0
    sections: Sequence[Section] = ()
    outranks: Sequence[str] = ()  # names, or "all"


@dataclass(frozen=True)
class Chain:
    """A chain of a set: its tasks by name, the first one first, the longest age and reaction in
    microseconds, and whether each job reads as it begins and writes at its `finish`, or reads as it
    arrives and writes a `deadline` later. With an offset for each task, in microseconds, it arrives
    then on one clock and each period on."""

    name: str
    tasks: Sequence[str]
    age: int | None = None
    reaction: int | None = None
    writes: str = "finish"
    offsets: Sequence[int] = ()


@dataclass(frozen=True, kw_only=True)
class _Answer:
    text: str = field(default="", repr=False, compare=False)

    def __str__(self) -> str:
        return self.text


class _No(_Answer):
    def __bool__(self) -> bool:
        return False


@dataclass(frozen=True)
class Level:
    """A task at its level, 1 the lowest, and the bound on its response."""

    level: int
    task: str
    response: int


@dataclass(frozen=True)
class ChainPart:
    """A part of a chain's bound: `kind` is wait, jitter, response or deadline, of a `task`; a response
    may be `less` the cost of the next one."""

    kind: str
    task: str
    time: int
    less: str | None = None


@dataclass(frozen=True)
class Bound:
    """The bound of a chain, None where a task of it misses its deadline, beside its limit, if it has one;
    of `explain`, the parts that it is the sum of; and where the best order misses the limit, how small the
    bound could be in any order that passes: past the limit none meets it, else another one may."""

    chain: str
    bound: int | None
    limit: int | None
    parts: tuple[ChainPart, ...] = ()
    least: int | None = None

    @property
    def met(self) -> bool:
        return self.limit is None or (self.bound is not None and self.bound <= self.limit)


@dataclass(frozen=True)
class Admitted(_Answer):
    """The best order, the lowest level first, and the set's chains in it."""

    levels: tuple[Level, ...]
    chains: tuple[Bound, ...] = ()

    def __bool__(self) -> bool:
        return all(it.met for it in self.chains)


@dataclass(frozen=True)
class Infeasible(_No):
    """No order passes: the greatest set of tasks that shows it."""

    tasks: tuple[str, ...]


@dataclass(frozen=True)
class Certificate(_Answer):
    """The numbers that show the best order, or (`best` is false) that none passes."""

    best: bool

    def __bool__(self) -> bool:
        return self.best


@dataclass(frozen=True)
class Checked(_Answer):
    """What a certificate shows: the best order, with its numbers of the set's chains in place of their
    bounds, or (`best` is false) that none passes."""

    best: bool
    chains: tuple[Bound, ...] = ()

    def __bool__(self) -> bool:
        return self.best


@dataclass(frozen=True)
class Part:
    """A part of a time: `kind` is cost, node (what the node takes of a job), jitter, blocked (by `task`),
    above (`jobs` of `task`), timers (of all tasks) or interrupt (`jobs` of that of a `number`). `team`
    is whose that task is, where the set is documents of teams. `ceiling_by` is a task above whose
    use of the lock makes it block, where the task itself doesn't use it."""

    kind: str
    time: int
    task: str | None = None
    section: int | None = None
    lock: str | None = None
    jobs: int | None = None
    team: str | None = None
    ceiling_by: str | None = None
    number: int | None = None


@dataclass(frozen=True)
class Response:
    """A time of a task and its parts: where it misses its deadline, what it needs at least. `time` is
    None where the task must be above another; `number` is that of its thread, of `judge`; `team` whose
    it is, of `explain`, where the set is documents of teams."""

    task: str
    time: int | None = None
    deadline: int | None = None
    parts: tuple[Part, ...] = ()
    level: int | None = None
    must_be_above: str | None = None
    number: int | None = None
    team: str | None = None


@dataclass(frozen=True)
class Explained(_Answer):
    """What each bound is made of, those of chains, too; the load in millionths."""

    levels: tuple[Response, ...]
    load: int
    chains: tuple[Bound, ...] = ()

    def __bool__(self) -> bool:
        return all(it.met for it in self.chains)


@dataclass(frozen=True)
class Conflict(_No):
    """Tasks none of which can be the lowest of them, and what each needs there; and what becomes of
    each task in an `order` that passes where any does, the lowest level first, with the parts of what
    a task needs that misses its deadline."""

    obstruction: tuple[str, ...]
    tasks: tuple[str, ...]
    needs: tuple[Response, ...]
    load: int
    order: tuple[Response, ...]


@dataclass(frozen=True)
class Along:
    """The deadline that a period takes along, or the period that a deadline does: what it is with
    the furthest value in the best order, and in some order."""

    number: str
    in_order: int | None
    most: int


@dataclass(frozen=True)
class Limit:
    """A number of a task: `cost`, `period`, `deadline`, `jitter` or `section K len`, its value, and
    the furthest with which the best order passes, and some order does; what goes along, and what
    holds it where its sheet may have none further: `cost`, `section 2`, or the least period."""

    number: str
    value: int
    in_order: int | None
    most: int | None
    along: Along | None = None
    held_by: str | None = None


@dataclass(frozen=True)
class Factor:
    """All execution in thousandths with which the best order passes, and some order does, and the
    task that fails first past it."""

    in_order: int | None
    most: int | None
    task: str | None


@dataclass(frozen=True)
class Reach:
    """A number of a task, its value, and the furthest with which the best order passes and a chain is
    met, where that order passes further on."""

    task: str
    number: str
    value: int
    furthest: int


@dataclass(frozen=True)
class Limits(_Answer):
    """How far each number may go. Of a refused set (`answer` is a no) those that mend it are here
    alone, each with the least that does; `slack` is empty then, and `locks` have the most that each
    section of a lock may take. `interrupts` are by `interrupt K`, in a folder's behind their team. Of
    chains with a limit `chain_slack` has what the bounds leave of met ones, `chains` how far numbers may go."""

    answer: Infeasible | None
    tasks: Mapping[str, tuple[Limit, ...]]
    interrupts: Mapping[str, tuple[Limit, ...]]
    node: tuple[Limit, ...]
    locks: Mapping[str, Limit]
    slack: Mapping[str, int]
    factor: Factor | None
    chain_slack: Mapping[str, int] = field(default_factory=dict)
    chains: Mapping[str, tuple[Reach, ...]] = field(default_factory=dict)

    def __bool__(self) -> bool:
        return self.answer is None


@dataclass(frozen=True)
class Settings(_Answer):
    """The level of each thread and the ceiling of each mutex; false where a chain misses its limit with them (`met`)."""

    threads: Mapping[str, int]
    mutexes: Mapping[str, int]
    met: bool = True

    def __bool__(self) -> bool:
        return self.met


@dataclass(frozen=True)
class Judged(_Answer):
    """Which tasks miss their deadlines at priorities that are there, and the set's chains."""

    misses: tuple[str, ...]
    levels: tuple[Response, ...]
    chains: tuple[Bound, ...] = ()

    def __bool__(self) -> bool:
        return not self.misses and all(it.met for it in self.chains)


@dataclass(frozen=True)
class Difference:
    """What was and what is, None where there is none: of `cost`, say, of `section 1`, as `m@0:200`, of
    `outranks`, as `a+b`; and of a set itself `prefer`, `node job`, `interrupt 1 cost`, in a folder
    behind its team."""

    key: str
    old: int | str | None
    new: int | str | None


@dataclass(frozen=True)
class Change:
    """What a change of a set does to a task: (before, after) of its level, bound and slack, None
    where there is none."""

    kind: str
    task: str
    level: tuple[int | None, int | None]
    bound: tuple[int | None, int | None]
    slack: tuple[int | None, int | None]
    keys: tuple[Difference, ...] = ()
    team: str | None = None


@dataclass(frozen=True)
class ChainChange:
    """The same of a chain: its bound, and what that leaves of its limit, which may be less than nothing;
    of keys `tasks`, as `a+b`, `limit`, and `writes`."""

    kind: str
    chain: str
    bound: tuple[int | None, int | None]
    slack: tuple[int | None, int | None]
    keys: tuple[Difference, ...] = ()


@dataclass(frozen=True)
class Compared(_Answer):
    """What a change of a set comes to: both verdicts, what no task has, and the tasks and chains of which
    there is something to say. It is false where the new set is refused."""

    admitted: bool
    was_admitted: bool
    whole: tuple[Difference, ...]
    changes: tuple[Change, ...]
    chains: tuple[ChainChange, ...] = ()

    def __bool__(self) -> bool:
        return self.admitted


@dataclass(frozen=True)
class Release:
    """A job arrives, is ready so much later, and executes for `runs`, or for its task's cost."""

    arrival: int
    task: str
    late: int = 0
    runs: int | None = None


@dataclass(frozen=True)
class Releases(_Answer):
    """A list of releases, which `simulate` and `draw` take."""

    until: int
    jobs: tuple[Release, ...]


@dataclass(frozen=True)
class Worst(_Answer):
    """The worst case of a task in the best order, or, of a refused set, in one that decides, whose
    `settings` are here and in the text of `releases`; then it is false. `kind` is `comes`, and the
    task's job takes `response` of its bound, the `limit`; `misses`, and it misses its deadline, the
    `limit`; or says why the `releases` show neither, with the `other` task where it names one. Of
    a `chain` it is the run that its bound describes, with the greatest age there and the bound."""

    admitted: bool
    task: str | None
    kind: str | None
    response: int | None = None
    limit: int | None = None
    other: str | None = None
    settings: Settings | None = None
    releases: Releases | None = None
    chain: str | None = None

    def __bool__(self) -> bool:
        return self.admitted


@dataclass(frozen=True)
class Slice:
    """Who executes from when to when."""

    start: int
    stop: int
    task: str


@dataclass(frozen=True)
class Job:
    """A job with its finish, None where it isn't done."""

    task: str
    arrival: int
    finish: int | None


@dataclass(frozen=True)
class Run(_Answer):
    """What the simulated kernel did."""

    slices: tuple[Slice, ...]
    jobs: tuple[Job, ...]


@dataclass(frozen=True)
class Seen:
    """What a trace shows of a task: how many jobs, the longest execution beside the cost, the least
    time between two arrivals beside the period, and the greatest response beside the bound."""

    task: str
    jobs: int
    executed: int
    cost: int
    gap: int | None
    period: int
    response: int | None
    bound: int


@dataclass(frozen=True)
class Broken:
    """A promise that a job breaks, by its arrival: `kind` is priority, cost, period, late, blocked,
    foreign, idle, bound or open, or steady, of a chain's task; `time`, or the priority, beside its
    `limit`, and `by` whom, where there is one. `below` has each task below that blocked it, with its
    time, the longest first. It follows from `after`: the kind, task and arrival of another."""

    kind: str
    task: str
    arrival: int
    time: int | None = None
    limit: int | None = None
    by: str | None = None
    below: tuple[tuple[str, int], ...] = ()
    after: tuple[str, str, int] | None = None


@dataclass(frozen=True)
class ChainSeen:
    """How many outputs of a chain have a sample in a trace, how old what stands of it got and the longest
    reaction, None where there is none, beside its bound. Where it got older than it may, `most` is how
    old that is: the bound, of tasks that write at their deadlines with jitters of those whose jobs don't
    say when they were ready."""

    chain: str
    outputs: int
    age: int | None
    reaction: int | None
    bound: int | None
    most: int | None = None

    @property
    def kept(self) -> bool:
        return self.most is None


@dataclass(frozen=True)
class Observed(_Answer):
    """What a trace shows of each task, the lowest level first, which of them have no job, which
    promises are broken, those that follow from others last, and what it shows of each chain. It is
    false where there is such a task or promise, or a chain gets older than its bound."""

    tasks: tuple[Seen, ...]
    jobless: tuple[str, ...]
    broken: tuple[Broken, ...]
    chains: tuple[ChainSeen, ...] = ()

    def __bool__(self) -> bool:
        return not self.jobless and not self.broken and all(it.kept for it in self.chains)


@dataclass(frozen=True)
class Place:
    """A task of a team on the node, its level and its bound."""

    level: int
    task: str
    team: int
    response: int


@dataclass(frozen=True)
class Played(_Answer):
    """The replies to a script's lines, and the node's state after them."""

    replies: tuple[str, ...]
    version: int
    levels: tuple[Place, ...]


@dataclass(frozen=True)
class Node:
    """What the node itself takes of a job and of each lock, how late a job may begin, and what of `job` a
    timer takes of whoever executes."""

    job: int = 0
    lock: int = 0
    late: int = 0
    release: int = 0


@dataclass(frozen=True)
class Interrupt:
    """One that no task asks for, as of a clock or a device."""

    period: int
    cost: int


# A set is a document, or tasks.
Sheets = Text | Iterable[Task]


def toml(
    tasks: Iterable[Task],
    prefer: str | None = None,
    node: Node | None = None,
    interrupts: Iterable[Interrupt] = (),
    chains: Iterable[Chain] = (),
) -> str:
    """The tasks as a document that the other functions read, what it prefers, its node, interrupts and
    chains."""

    def word(name: str) -> str:
        return json.dumps(name, ensure_ascii=False)

    def words(names: Iterable[str]) -> str:
        return "[" + ", ".join(word(it) for it in names) + "]"

    def section(it: Section) -> str:
        at = "" if it.at is None else f"at = {it.at}, "
        return f"{{ locks = {words(it.locks)}, {at}len = {it.len} }}"

    def lines(it: Task) -> Iterable[str]:
        yield "[[task]]"
        yield f"name = {word(it.name)}"
        for key in ("weight", "period", "deadline", "cost", "jitter"):
            yield f"{key} = {getattr(it, key)}"
        if it.sections:
            yield f"section = [{', '.join(map(section, it.sections))}]"
        if it.outranks == "all":
            yield 'outranks = "all"'
        elif it.outranks:
            yield f"outranks = {words(it.outranks)}"

    head = [f"prefer = {word(prefer)}"] if prefer else []
    if node is not None:
        keys = ("job", "lock", "release", "late")
        head += ["[node]", *(f"{key} = {getattr(node, key)}" for key in keys)]
    for it in interrupts:
        head += ["[[interrupt]]", f"period = {it.period}", f"cost = {it.cost}"]
    said = [*head, *(line for it in tasks for line in lines(it))]
    for it in chains:
        said += ["[[chain]]", f"name = {word(it.name)}", f"tasks = {words(it.tasks)}"]
        said += [f"{key} = {value}" for key in ("age", "reaction") if (value := getattr(it, key)) is not None]
        said += [f"offsets = {list(it.offsets)}"] * bool(it.offsets)
        said += [f"writes = {word(it.writes)}"] * (it.writes != "finish")
    return "".join(line + "\n" for line in said)


# The commands of include/desk.h, each at its number less 1, and those that take a second input.
_COMMANDS = ("admit", "certify", "check", "limits", "settings", "explain")
_COMMANDS += ("judge", "diff", "releases", "simulate", "draw", "play", "observe", "worst", "draw_beside")
_COMMANDS += ("worst_chain", "draw_chain")
# A line of a chain: behind those of all levels, and no level's has such words.
_CHAIN = re.compile(r"chain \S+ (-|[0-9]+)( (of|misses) [0-9]+( least [0-9]+)?)?")
_SECOND = ("check", "judge", "diff", "simulate", "draw", "observe", "worst", "draw_beside")
_SECOND += ("worst_chain", "draw_chain")


def _library() -> ctypes.CDLL:
    here = Path(__file__).resolve().parent
    places = [here / "libdesk.so", here.parent / "lib" / "libdesk.so"]
    found = next((str(it) for it in places if it.exists()), "libdesk.so")
    path = os.environ.get("DESK_LIBRARY") or found
    text = (ctypes.c_char_p, ctypes.c_size_t)
    taken = {"tell": (ctypes.c_uint8, *text, *text, ctypes.c_uint64)}
    for name in _COMMANDS:
        more = (ctypes.c_uint64,) if name == "releases" else text if name in _SECOND else ()
        taken[name] = (*text, *more)
    try:
        library = ctypes.CDLL(path)
        for name, types in taken.items():
            call = getattr(library, f"desk_{name}")
            call.argtypes = (*types, *text, ctypes.POINTER(ctypes.c_uint8))
            call.restype = ctypes.c_size_t
    except (OSError, AttributeError) as fault:
        raise ImportError(
            f"no library of desk at {path} ({fault}). In a clone of desk `./install PREFIX` makes "
            "PREFIX/lib/libdesk.so; the variable DESK_LIBRARY names it, when this module is imported "
            "or, for good, at `pip install ./python`, which takes it along"
        ) from None
    return library


_LIBRARY = _library()


def _bytes(given: Sheets | _Answer) -> bytes:
    if isinstance(given, bytes):
        return given
    return (str(given) if isinstance(given, (str, _Answer)) else toml(given)).encode()


def _call(name: str, *words: bytes | int) -> tuple[int, str]:
    """The status and the text of a call."""
    call, status = getattr(_LIBRARY, f"desk_{name}"), ctypes.c_uint8()
    length, size = 1, 0
    while length > size:
        size = max(length, 4096)
        room = ctypes.create_string_buffer(size)
        length = call(*words, room, size, ctypes.byref(status))
    return status.value, ctypes.string_at(room, length).decode()


def _told(command: str, texts: Sequence[bytes], until: int) -> str:
    """What the program tells a person of these inputs."""
    first, second = (*texts, b"")[:2]
    number = _COMMANDS.index(command) + 1
    return _call("tell", number, first, len(first), second, len(second), until)[1].strip()


def _ask(command: str, *inputs: Sheets | _Answer | int) -> tuple[int, str]:
    """The status and the printed text of a command; a refusal is raised."""
    texts, until, words = [], 0, []
    for it in inputs:
        if isinstance(it, int):
            until = it
            words.append(it)
        else:
            texts.append(_bytes(it))
            words += [texts[-1], len(texts[-1])]
    status, said = _call(command, *words)
    if status == 6:
        raise OutOfMemory(said.splitlines()[-1] if said else "refused: OutOfMemory")
    if status in (4, 5):
        raise Refused(said.strip(), status, _told(command, texts, until))
    return status, said


def _time(word: str) -> int | None:
    return None if word == "-" else int(word)


def _differences(words: Sequence[str], front: str = "") -> tuple[Difference, ...]:
    found, rest = [], list(words)
    while rest:
        key = front + (f"section {rest.pop(1)}" if rest[0] == "section" else rest[0])
        old, new = (int(it) if it.isdigit() else None if it == "-" else it for it in rest[1:3])
        found.append(Difference(key, old, new))
        del rest[:3]
    return tuple(found)


def _no(said: str) -> Infeasible:
    return Infeasible(tuple(said.splitlines()[0].split()[1:]), text=said)


def _chained(lines: Sequence[str]) -> tuple[Sequence[str], tuple[Bound, ...]]:
    """The lines in front of those of chains, and what these say."""
    end = next((k for k, it in enumerate(lines) if _CHAIN.fullmatch(it)), len(lines))
    found: list[tuple[list[str], list[ChainPart]]] = []
    for words in map(str.split, lines[end:]):
        if words[0] == "chain":
            found.append((words, []))
        else:
            less = words[4] if words[2] == "less" else None
            found[-1][1].append(ChainPart(words[0], words[1], int(words[-1]), less))
    bounds = []
    for (_, name, bound, *rest), parts in found:
        limit, least = (int(rest[k]) if len(rest) > k else None for k in (1, 3))
        bounds.append(Bound(name, _time(bound), limit, tuple(parts), least))
    return lines[:end], tuple(bounds)


def admit(tasks: Sheets) -> Admitted | Infeasible:
    """The best order, or the tasks in the way of all.

    >>> admit([Task("a", 10_000, 10_000, 6000)])
    Admitted(levels=(Level(level=1, task='a', response=6000),), chains=())
    """
    said = _ask("admit", tasks)[1]
    if said.startswith("infeasible"):
        return _no(said)
    lines, chains = _chained(said.splitlines()[1:])
    levels = (Level(int(k), name, int(time)) for k, name, time in map(str.split, lines))
    return Admitted(tuple(levels), chains, text=said)


def certify(tasks: Sheets) -> Certificate:
    """The numbers that show the answer.

    >>> print(certify([Task("a", 10_000, 10_000, 6000)]), end="")
    desk-certificate 1
    best 1
    level 1 a 6000
    end
    """
    status, said = _ask("certify", tasks)
    return Certificate(status == 0, text=said)


def check(tasks: Sheets, certificate: Text | Certificate) -> Checked:
    """What a certificate shows; one that shows nothing is refused.

    >>> one = [Task("a", 10_000, 10_000, 6000)]
    >>> check(one, certify(one))
    Checked(best=True, chains=())
    """
    said = _ask("check", tasks, certificate)[1]
    first, *lines = said.splitlines()
    return Checked(first == "best", _chained(lines)[1], text=said)


def _team(words: Sequence[str]) -> str | None:
    return words[-1] if words[-2] == "team" else None


def _part(words: Sequence[str]) -> Part:
    if words[0] == "blocked":
        time, task, section, lock = int(words[1]), words[3], int(words[5]), words[7]
        user = words[10] if lock.endswith(",") else None
        return Part(
            "blocked", time, task, section, lock.rstrip(","), team=_team(words), ceiling_by=user
        )
    if words[0] == "above":
        return Part("above", int(words[4]), words[1], jobs=int(words[2]), team=_team(words))
    if words[0] == "interrupt":
        return Part("interrupt", int(words[4]), jobs=int(words[2]), number=int(words[1]))
    return Part(words[0], int(words[1]))


def _parted(lines: Iterable[str]) -> list[tuple[list[str], tuple[Part, ...]]]:
    """The words of each line, and the parts that stand below it."""
    found: list[tuple[list[str], list[Part]]] = []
    for line in lines:
        if line.startswith(" "):
            found[-1][1].append(_part(line.split()))
        else:
            found.append((line.split(), []))
    return [(words, tuple(parts)) for words, parts in found]


def _responses(lines: Iterable[str]) -> tuple[Response, ...]:
    out = []
    for words, parts in _parted(lines):
        level = int(words.pop(0)) if words[0].isdigit() else None
        if words[1] == "must":
            out.append(Response(words[0], level=level, must_be_above=words[4], team=_team(words)))
        else:
            time, deadline = int(words[1]), int(words[3])
            out.append(Response(words[0], time, deadline, parts, level, team=_team(words)))
    return tuple(out)


def _in_order(words: Sequence[str], parts: tuple[Part, ...] = ()) -> Response:
    """What becomes of a task in an order; the number of its thread, or its team, stands behind."""
    k, name, what, *more = words
    level, team, number = int(k), _team(words), int(more[-1]) if more[-2:-1] == ["at"] else None
    if what == "below":
        return Response(name, level=level, must_be_above=more[0], number=number)
    if what == "misses":
        time, deadline = int(more[2]), more[0]
    else:
        time, deadline = int(what), more[1]
    return Response(name, time, int(deadline), parts, level, number=number, team=team)


def explain(tasks: Sheets) -> Explained | Conflict:
    """What each bound is made of, or a conflict and what its tasks need.

    >>> explained = explain([Task("a", 10_000, 10_000, 6000), Task("b", 5000, 5000, 1000)])
    >>> explained.load, [(it.kind, it.task, it.time) for it in explained.levels[0].parts]
    (800000, [('cost', None, 6000), ('above', 'b', 2000)])
    """
    said = _ask("explain", tasks)[1]
    first, *lines = said.splitlines()
    end = next(k for k, it in enumerate(lines) if it.startswith("load ") and len(it.split()) == 2)
    load = int(lines[end].split()[1])
    if first.startswith("admitted"):
        return Explained(_responses(lines[:end]), load, _chained(lines[end + 1 :])[1], text=said)
    tasks_left, *needs = lines[:end]
    order = tuple(_in_order(words, parts) for words, parts in _parted(lines[end + 1 :]))
    conflict = tuple(tasks_left.split()[1:])
    return Conflict(tuple(first.split()[1:]), conflict, _responses(needs), load, order, text=said)


def _limit(words: Sequence[str]) -> Limit:
    """A number's line behind its task; behind `with` what goes along, behind `by` what holds it."""
    along, held_by = None, None
    if "by" in words:
        end = words.index("by")
        words, held_by = words[:end], " ".join(words[end + 1 :])
    if "with" in words:
        end = words.index("with")
        words, (other, *with_each) = words[:end], words[end + 1 :]
        along = Along(other, int(with_each[0]) if with_each[1:] else None, int(with_each[-1]))
    *number, value, in_order, most = words
    return Limit(" ".join(number), int(value), _time(in_order), _time(most), along, held_by)


def _interrupt(name: str, words: list[str]) -> str | None:
    """The words of a line that say of which interrupt it is, if it is of one."""
    if name == "interrupt" and words[0].isdigit():
        return f"{name} {words[0]}"
    if words[0] == "interrupt":
        return " ".join([name, *words[:2]])
    return None


def limits(tasks: Sheets) -> Limits:
    """How far each number may go, or what mends the set.

    >>> found = limits([Task("a", 10_000, 10_000, 6000)])
    >>> found.tasks["a"][0]
    Limit(number='cost', value=6000, in_order=10000, most=10000, along=None, held_by='period')
    >>> found.slack["a"], found.factor
    (4000, Factor(in_order=1666, most=1666, task='a'))
    >>> found = limits(toml([Task("a", 10_000, 10_000, 9000)], interrupts=[Interrupt(1000, 200)]))
    >>> [(it.number, it.most) for it in found.interrupts["interrupt 1"]]
    [('cost', 100), ('period', 2000)]
    >>> low = Task("low", 9000, 9000, 900, sections=[Section(["m"], 0, 400), Section(["m"], 400, 400)])
    >>> found = limits([Task("top", 1000, 1000, 700, sections=[Section(["m"], 0, 9)]), low])
    >>> found.locks["m"]
    Limit(number='len', value=400, in_order=None, most=300, along=None, held_by=None)
    >>> tasks = [Task("a", 10_000, 10_000, 2000), Task("b", 5000, 5000, 1000)]
    >>> found = limits(toml(tasks, chains=[Chain("ab", ["a", "b"], age=19_000)]))
    >>> found.chain_slack, found.chains["ab"][0]
    ({'ab': 1000}, Reach(task='a', number='cost', value=2000, furthest=3000))
    """
    status, said = _ask("limits", tasks)
    _, *lines = said.splitlines()
    rows: dict[str, tuple[Limit, ...]] = {}
    interrupts: dict[str, tuple[Limit, ...]] = {}
    node, locks, slack, factor = (), {}, {}, None
    chain_slack: dict[str, int] = {}
    chains: dict[str, tuple[Reach, ...]] = {}
    for name, *words in (it.split() for it in lines):
        if name == "chain" and words[2:] and words[1][0].isalpha():
            chain, task, *number = words
            if task == "slack" and not number[1:]:
                chain_slack[chain] = int(number[0])
            else:
                reach = Reach(task, " ".join(number[:-2]), int(number[-2]), int(number[-1]))
                chains[chain] = (*chains.get(chain, ()), reach)
        elif name == "all" and (len(words) == 3 or words == ["-", "-"]):
            factor = Factor(_time(words[0]), _time(words[1]), words[2] if words[2:] else None)
        elif len(words) == 2 and words[0] == "slack":
            slack[name] = int(words[1])
        elif name == "lock" and words[1] == "len":
            locks[words[0]] = _limit(words[1:])
        elif whose := _interrupt(name, words):
            words = words[len(whose.split()) - 1 :]
            interrupts[whose] = (*interrupts.get(whose, ()), _limit(words))
        elif name == "node" and words[0] in ("job", "lock", "release", "late"):
            node = (*node, _limit(words))
        elif len(words) >= 4:
            rows[name] = (*rows.get(name, ()), _limit(words))
    answer = _no(said) if status else None
    return Limits(answer, rows, interrupts, node, locks, slack, factor, chain_slack, chains, text=said)


def settings(tasks: Sheets) -> Settings | Infeasible:
    """The level of each thread and the ceiling of each mutex, which `judge` takes.

    >>> settings([Task("a", 10_000, 10_000, 6000, sections=[Section(["m"], 0, 100)])])
    Settings(threads={'a': 1}, mutexes={'m': 1}, met=True)
    """
    status, said = _ask("settings", tasks)
    if said.startswith("infeasible"):
        return _no(said)
    return replace(_set_to(said.splitlines()), met=status == 0)


def _judged(said: str) -> Judged:
    first, *lines = said.splitlines()
    lines, chains = _chained(lines)
    levels = tuple(_in_order(it.split()) for it in lines)
    misses = tuple(first.split()[1:]) if first.startswith("misses") else ()
    return Judged(misses, levels, chains, text=said)


def judge(tasks: Sheets, settings: Text | Settings) -> Judged:
    """Which deadlines hold at priorities that are there.

    >>> two = [Task("a", 10_000, 10_000, 6000), Task("b", 5000, 5000, 1000)]
    >>> found = judge(two, "thread a 20\\nthread b 10\\n")
    >>> found.misses, [(it.task, it.number) for it in found.levels]
    (('b',), [('b', 10), ('a', 20)])
    """
    return _judged(_ask("judge", tasks, settings)[1])


def diff(tasks: Sheets, new: Sheets) -> Compared:
    """What the new set does to each task of the old one.

    >>> one, other = Task("a", 10_000, 10_000, 6000), Task("b", 5000, 5000, 1000)
    >>> [(it.kind, it.task, it.bound) for it in diff([one], [one, other]).changes]
    [('added', 'b', (None, 1000)), ('slower', 'a', (6000, 8000))]
    """
    status, said = _ask("diff", tasks, new)
    _, was, *lines = said.splitlines()
    whole, changes, chains = (), [], []
    for words in (it.split() for it in lines):
        if words[3:4] == ["bound"]:
            bound, slack = ((_time(words[k]), _time(words[k + 1])) for k in (4, 7))
            chains.append(ChainChange(words[0], words[2], bound, slack, _differences(words[10:])))
            continue
        if words[2:3] != ["level"]:
            front = 3 if words[1] == "interrupt" else {"node": 1, "interrupt": 2}.get(words[0], 0)
            whole += _differences(words[front:], "".join(it + " " for it in words[:front]))
            continue
        level, bound, slack = ((_time(words[k]), _time(words[k + 1])) for k in (3, 6, 9))
        keys = _differences(words[12:]) if words[11:12] == ["keys"] else ()
        team = None if keys else _team(words)
        changes.append(Change(words[0], words[1], level, bound, slack, keys, team))
    was_admitted = was.startswith("was admitted")
    return Compared(status == 0, was_admitted, whole, tuple(changes), tuple(chains), text=said)


def releases(tasks: Sheets, until: int) -> Releases:
    """The densest release list that the set allows.

    >>> releases([Task("a", 10_000, 10_000, 6000, jitter=5)], 10_000).jobs
    (Release(arrival=0, task='a', late=5, runs=None),)
    """
    # (what has no 64 bits is past the horizon, too)
    return _list(_ask("releases", tasks, until if 0 <= until < 2**64 else 2**64 - 1)[1])


def _list(said: str, order: str = "") -> Releases:
    first, *rows = (it.split() for it in said.splitlines())
    jobs = (Release(int(it[0]), it[1], int(it[2]) if len(it) > 2 else 0) for it in rows)
    return Releases(int(first[1]), tuple(jobs), text=order + said)


def _set_to(lines: Iterable[str]) -> Settings:
    found: dict[str, dict[str, int]] = {"thread": {}, "mutex": {}}
    for kind, name, level in (it.split() for it in lines):
        found[kind][name] = int(level)
    return Settings(found["thread"], found["mutex"], text="".join(it + "\n" for it in lines))


def worst(tasks: Sheets, task: str = "", chain: str = "") -> Worst:
    """The worst case of this task, or of the one of least slack; of a refused set that of the highest
    task that doesn't meet its deadline, in an order that decides. With a chain the run that its bound
    describes.

    >>> found = worst([Task("a", 10_000, 10_000, 6000), Task("b", 5000, 5000, 1000)])
    >>> found.task, found.response, found.limit, found.releases.jobs[0]
    ('a', 8000, 8000, Release(arrival=0, task='a', late=0, runs=None))
    >>> worst([Task("a", 10_000, 10_000, 6000), Task("b", 5000, 5000, 1000)], "b").response
    1000
    >>> late = [Task("a", 10_000, 9000, 6000), Task("b", 10_000, 9000, 6000)]
    >>> simulate(late, worst(late).releases).jobs[0]
    Job(task='a', arrival=0, finish=12000)
    >>> alone = toml([Task("a", 10_000, 10_000, 6000)], chains=[Chain("c", ["a"])])
    >>> found = worst(alone, chain="c")
    >>> found.chain, found.response, found.limit
    ('c', 16000, 16000)
    """
    status, said = _ask("worst_chain", tasks, chain.encode()) if chain else _ask("worst", tasks, task.encode())
    lines = said.splitlines()
    words = lines.pop(0).split()[1:] if lines[0].startswith("#") else [None, None]
    name, kind, *more = words
    times = {}
    if kind == "misses":
        times = {"limit": int(more.pop())}
    elif more[:1] == ["of"] and more[1:]:
        times = {"response": _time(kind), "limit": int(more[1])}
        kind, more = "comes", []
    first = next((k for k, it in enumerate(lines) if it.startswith("until ")), None)
    if first is not None:
        order, said_list = ("".join(it + "\n" for it in part) for part in (lines[:first], lines[first:]))
        times["settings"] = _set_to(lines[:first]) if status else None
        times["releases"] = _list(said_list, order)
    whose = {"task": None, "chain": name} if chain else {"task": name}
    return Worst(status == 0, kind=kind, other=more[0] if more else None, **whose, **times, text=said)


def simulate(tasks: Sheets, releases: Text | Releases) -> Run | Infeasible:
    """What a simulated kernel does with the releases, at the levels of the best order or of that
    which the releases give.

    >>> simulate([Task("a", 10_000, 10_000, 6000)], "until 20000\\n0 a\\n").jobs
    (Job(task='a', arrival=0, finish=6000),)
    """
    status, said = _ask("simulate", tasks, releases)
    if status:
        return _no(said)
    rows = [it.split() for it in said.splitlines()]
    slices = tuple(Slice(int(it[0]), int(it[1]), it[2]) for it in rows if it[0] != "job")
    jobs = tuple(Job(it[1], int(it[2]), _time(it[3])) for it in rows if it[0] == "job")
    return Run(slices, jobs, text=said)


def draw(
    tasks: Sheets, releases: Text | Releases, beside: Sheets | None = None, chain: str = ""
) -> str | Infeasible:
    """The same as a picture, an SVG document; with another set, its run stands beside; with a chain of
    the set, the way of its oldest datum is in it. Not with both.

    >>> before = [Task("a", 10_000, 10_000, 6000)]
    >>> draw(before, "until 20000\\n0 a\\n").splitlines()[-1]
    '</svg>'
    >>> after = draw(before, "until 20000\\n0 a\\n", beside=[Task("a", 10_000, 10_000, 5000)])
    >>> "a: response 5000 us, before 6000 us" in after
    True
    >>> alone = toml([Task("a", 10_000, 10_000, 6000)], chains=[Chain("c", ["a"])])
    >>> "chain c: age 16 ms of bound 16 ms" in draw(alone, worst(alone, chain="c").releases, chain="c")
    True
    """
    if beside is not None and chain:
        raise ValueError("a picture of two sets shows no way along a chain")
    if beside is None and not chain:
        status, said = _ask("draw", tasks, releases)
    else:
        # (a byte 0 stands between the list and what comes behind it)
        other = chain.encode() if chain else _bytes(beside)
        both = _bytes(releases).replace(b"\0", b"\1") + b"\0" + other
        status, said = _ask("draw_chain" if chain else "draw_beside", tasks, both)
    return _no(said) if status else said


def observe(tasks: Sheets, trace: Text | Run) -> Observed | Judged | Infeasible:
    """Which promises of the set a trace of a node breaks, with no tolerance: in the order that it
    gives, or else in the best one. In an order in which a task misses its deadline nothing is
    promised, and the answer is that of `judge`.

    >>> it = observe([Task("a", 10_000, 10_000, 6000)], "0 7000 a\\njob a 0 7000\\n").broken[0]
    >>> it.kind, it.task, it.time, it.limit
    ('cost', 'a', 7000, 6000)
    """
    said = _ask("observe", tasks, trace)[1]
    if said.startswith("infeasible"):
        return _no(said)
    if said.startswith("misses"):
        return _judged(said)
    seen, jobless, broken, chains = [], [], [], []
    for kind, name, *words in (it.split() for it in said.splitlines()):
        if kind == "task":
            seen.append(Seen(name, *(_time(it) for it in words)))
        elif kind == "jobless":
            jobless.append(name)
        elif kind == "chain":
            chains.append(ChainSeen(name, int(words[0]), *map(_time, words[2::2])))
        elif kind == "age":
            chains[-1] = replace(chains[-1], most=int(words[-1]))
        else:
            broken.append(_broken(kind, name, words))
    return Observed(tuple(seen), tuple(jobless), tuple(broken), tuple(chains), text=said)


def _broken(kind: str, name: str, words: list[str]) -> Broken:
    # (a task may be named `after`, but behind its name stands a time)
    place = len(words) - 4 if words[-4:-3] == ["after"] and words[-3].isalpha() else len(words)
    words, cause = words[:place], words[place + 1 :]
    arrival, *time = words[:2]
    more = dict(zip(words[2::2], words[3::2]))
    limit = int(more["of"]) if "of" in more else None
    it = Broken(kind, name, int(arrival), *map(int, time), limit=limit, by=more.get("by"))
    if cause:
        it = replace(it, after=(cause[0], cause[1], int(cause[2])))
    if kind == "blocked":
        parts = (part.split() for part in " ".join(words[5:]).split(", "))
        it = replace(it, below=tuple((name, int(time)) for name, time in parts))
    return it


def play(script: Text) -> Played:
    """What a script of drafts and commits comes to.

    >>> played = play("open 1\\nput 1 a 0 10000 10000 6000\\ncommit 1\\n")
    >>> played.replies, played.version
    (('draft 1 version 0', 'ok', 'admitted 1'), 1)
    >>> played.levels
    (Place(level=1, task='a', team=1, response=6000),)
    """
    said = _ask("play", script)[1]
    lines = [it.split() for it in said.splitlines()]
    last = max(k for k, it in enumerate(lines) if it[0] == "version")
    places = (Place(int(it[1]), it[2], int(it[3]), int(it[4])) for it in lines[last + 1 :])
    return Played(tuple(said.splitlines()[:last]), int(lines[last][1]), tuple(places), text=said)
