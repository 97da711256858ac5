"""What docs/FORMATS.md and docs/DEFINITIONS.md say of small inputs, written again in Python, for tests/hostile: the
refusal of a document, a certificate, a release list or a script, and what `admit` prints of a set. Python's own TOML
parser decides what is TOML. Nothing here is taken from what the program prints."""
import math
import re
import tomllib
from fractions import Fraction

NAME = re.compile(r"[A-Za-z][A-Za-z0-9_-]{0,23}\Z")
NUMBER = re.compile(r"(0|[1-9][0-9]{0,9})\Z")
TASK_KEYS = ["name", "weight", "period", "deadline", "cost", "section", "jitter", "outranks"]


class Refused(Exception):
    """The name of a refusal, and its fields."""


def refuse(*words):
    raise Refused(" ".join(str(it) for it in words))


def is_number(value):
    return type(value) is int and value >= 0


def are_all(kind, value):
    return type(value) is list and all(type(it) is kind for it in value)


KINDS = {
    **dict.fromkeys(["weight", "period", "deadline", "cost", "jitter", "at", "len"], is_number),
    "name": lambda value: type(value) is str,
    "section": lambda value: are_all(dict, value),
    "outranks": lambda value: value == "all" or are_all(str, value),
    "locks": lambda value: are_all(str, value),
}


def keys_of(table, place, known, wanted, ordered):
    if any(key not in known for key in table):
        refuse("UnknownKey", *place)
    for key in wanted:
        if key not in table:
            refuse("MissingKey", *place, key)
    for key in ordered:
        if key in table and not KINDS[key](table[key]):
            refuse("WrongKind", *place, key)


def section_faults(number, n, section, start, cost):
    locks, at, length = section["locks"], section.get("at", start), section["len"]
    tests = [
        ("NoLocks", not locks),
        ("TooManyLocks", len(locks) > 4),
        ("LockTwice", len(set(locks)) < len(locks)),
        ("LenZero", length == 0),
        ("Overlap", at < start),
        ("SectionPastCost", at + length > cost),
    ]
    for name, holds in tests:
        if holds:
            refuse(name, *number, n)
    return at + length


def named_of(task):
    """The names of tasks that a task outranks."""
    outranks = task.get("outranks", [])
    return [] if outranks == "all" else outranks


def must_outrank(task, other):
    if task.get("outranks") == "all":
        return other.get("outranks") != "all"
    return other["name"] in named_of(task)


def value_faults(number, task):
    """The faults of a task's values, named with these fields, up to those of its sections."""
    period, deadline, cost = task["period"], task["deadline"], task["cost"]
    tests = [
        ("BadWeight", task.get("weight", 0) > 1000),
        ("BadPeriod", not 1000 <= period <= 10_000_000),
        ("DeadlineZero", deadline == 0),
        ("DeadlinePastPeriod", deadline > period),
        ("CostZero", cost == 0),
        ("CostPastPeriod", cost > period),
        ("TooManySections", len(task.get("section", [])) > 8),
    ]
    for name, holds in tests:
        if holds:
            refuse(name, *number)
    start = 0
    for n, section in enumerate(task.get("section", []), 1):
        start = section_faults(number, n, section, start, cost)
    names = named_of(task)
    tests = [
        ("BadJitter", task.get("jitter", 0) >= deadline),
        ("TooManyOutranks", len(names) > 8),
        ("OutranksTwice", len(set(names)) < len(names)),
        ("OutranksSelf", task["name"] in names),
    ]
    for name, holds in tests:
        if holds:
            refuse(name, *number)


def check_task(number, task):
    keys_of(task, (number, 0), TASK_KEYS, ["name", "period", "deadline", "cost"], TASK_KEYS)
    for n, section in enumerate(task.get("section", []), 1):
        keys = ["locks", "at", "len"]
        keys_of(section, (number, n), keys, ["locks", "len"], keys)
    if not NAME.match(task["name"]):
        refuse("BadName", number, 0)
    for n, section in enumerate(task.get("section", []), 1):
        if not all(NAME.match(it) for it in section["locks"]):
            refuse("BadName", number, n)
    if not all(NAME.match(it) for it in named_of(task)):
        refuse("BadName", number, 0)
    value_faults((number,), task)


def tasks_of(data):
    """The tasks of a document, by rank."""
    try:
        root = tomllib.loads(data.decode("utf-8"))
    except (UnicodeDecodeError, tomllib.TOMLDecodeError):
        refuse("Syntax")
    if any(key not in ("task", "prefer") for key in root):
        refuse("UnknownKey", 0, 0)
    tasks = root.get("task", [])
    if not are_all(dict, tasks):
        refuse("WrongKind", 0, 0, "task")
    prefer = root.get("prefer", "weight")
    if not isinstance(prefer, str):
        refuse("WrongKind", 0, 0, "prefer")
    if prefer not in ("weight", "deadline", "chains"):
        refuse("BadPreference")
    for number, task in enumerate(tasks, 1):
        check_task(number, task)
    names = [task["name"] for task in tasks]
    for number, name in enumerate(names, 1):
        if name in names[: number - 1]:
            refuse("SameName", number)
    if len(tasks) > 32:
        refuse("TooManyTasks")
    # (without chains the set by them is that by deadlines)
    by_limit = lambda it: it.get("jitter", 0) - it["deadline"]
    weight = (lambda it: it.get("weight", 0)) if prefer == "weight" else by_limit
    return sorted(tasks, key=lambda it: (weight(it), it["name"].encode()))


def parts_of(data):
    """The documents of teams that a text is, each with its team and its tasks by rank."""
    parts, rest = [], data
    while rest:
        line, end, after = rest.partition(b"\n")
        words = line.decode("latin-1").split(" ")
        try:
            team, count = name_in(words[1]), number_in(words[2])
            is_head = words[0] == "#%" and len(words) == 3 and end and count <= len(after)
        except (IndexError, ValueError):
            is_head = False
        if not is_head:
            refuse("BadHead", len(parts) + 1)
        try:
            parts.append((team, tasks_of(after[:count])))
        except Refused as why:
            refuse("team", team, why)
        rest = after[count:]
    return parts


def node_of(data):
    """The node's document, or nothing, and what stands behind it."""
    line, end, after = data.partition(b"\n")
    try:
        count = number_in(line.decode("latin-1").removeprefix("#% "))
    except ValueError:
        return b"", data
    if not end or count > len(after):
        return b"", data
    return after[:count], after[count:]


def budgets_of(data):
    """What each team may take, by the names of the teams."""
    try:
        root = tomllib.loads(data.decode("utf-8"))
    except (UnicodeDecodeError, tomllib.TOMLDecodeError):
        refuse("node", "Syntax")
    teams = root.get("team", {})
    if set(root) - {"team"}:
        refuse("node", "UnknownKey")
    if not isinstance(teams, dict):
        refuse("node", "WrongKind")
    for team, budget in sorted(teams.items()):
        try:
            name_in(team)
        except ValueError:
            refuse("node", "BadName")
        if not isinstance(budget, dict):
            refuse("node", "WrongKind", team)
        if set(budget) - {"load", "section"}:
            refuse("node", "UnknownKey", team)
        for key in ("load", "section"):
            number = budget.get(key, 0)
            if not is_number(number):
                refuse("node", "WrongKind", team, key)
    return sorted(teams.items())


def keep_budgets(budgets, parts):
    """Each team of a budget has a document, and takes no more."""
    for team, budget in budgets:
        if all(team != other for other, _ in parts):
            refuse("NoSuchTeam", team)
        own = [task for other, tasks in parts if other == team for task in tasks]
        used = set().union(*(locks_of(task) for other, tasks in parts if other != team for task in tasks))
        load = math.ceil(1000 * sum(Fraction(task["cost"], task["period"]) for task in own))
        section = max((it["len"] for task in own for it in task.get("section", []) if used & set(it["locks"])), default=0)
        for key, number in (("load", load), ("section", section)):
            if number > budget.get(key, number):
                refuse("PastBudget", team, key, number, budget[key])


def tasks_of_text(data):
    """The tasks of a document, or of the documents of teams, by rank."""
    if not data.startswith(b"#% "):
        return tasks_of(data)
    node, data = node_of(data)
    budgets = budgets_of(node)
    parts = parts_of(data)
    tasks, owners = [], {}
    for team, own in parts:
        for task in own:
            if task["name"] in owners:
                refuse("TakenName", team, task["name"], owners[task["name"]])
            owners[task["name"]] = team
        tasks += own
    if len(tasks) > 32:
        refuse("TooManyTasks")
    keep_budgets(budgets, parts)
    return sorted(tasks, key=lambda it: (it.get("weight", 0), it["name"].encode()))


def locks_of(task):
    return {lock for section in task.get("section", []) for lock in section["locks"]}


def response_of(task, above, others):
    """The response of a task below these, where the others are below it; None where it misses its deadline."""
    reached = set().union(locks_of(task), *(locks_of(it) for it in above))
    blocking = max(
        (it["len"] for other in others for it in other.get("section", []) if reached & set(it["locks"])), default=0
    )
    limit, time = task["deadline"] - task.get("jitter", 0), 1
    while time <= limit:
        jobs = sum(-(-(time + it.get("jitter", 0)) // it["period"]) * it["cost"] for it in above)
        demand = task["cost"] + blocking + jobs
        if demand <= time:
            return time + task.get("jitter", 0)
        time = demand
    return None


def admit(data):
    """The lines that `admit` prints, and its status."""
    try:
        tasks = tasks_of_text(data)
    except Refused as why:
        return f"refused: {why}\n", 4
    left, lines = tasks, []
    while left:
        for task in left:
            above = [it for it in left if it is not task]
            response = response_of(task, above, [it for it in tasks if it not in left])
            if response is not None and not any(must_outrank(task, it) for it in above):
                break
        else:
            return "infeasible " + " ".join(it["name"] for it in left) + "\n", 3
        lines.append(f"{len(lines) + 1} {task['name']} {response}\n")
        left = above
    return f"admitted {len(tasks)}\n" + "".join(lines), 0


def kept_lines(data):
    """The numbered lines of a text that aren't skipped; and the number of all."""
    lines = data.split(b"\n")
    if not lines[-1]:
        lines.pop()
    kept = [(n, it.decode("latin-1").split(" ")) for n, it in enumerate(lines, 1) if it and not it.startswith(b"#")]
    return kept, len(lines)


def number_in(word):
    if not NUMBER.match(word):
        raise ValueError
    return int(word)


def name_in(word):
    if not NAME.match(word):
        raise ValueError
    return word


def release_in(words):
    if not 2 <= len(words) <= 3:
        raise ValueError
    return number_in(words[0]), name_in(words[1]), number_in(words[2]) if len(words) == 3 else 0


def releases_of(data):
    """The end and the releases of a list."""
    kept, count = kept_lines(data)
    end, releases = None, []
    for line, words in kept:
        try:
            if end is not None:
                releases.append(release_in(words))
            elif len(words) == 2 and words[0] == "until":
                end = number_in(words[1])
            else:
                raise ValueError
        except ValueError:
            refuse("BadLine", line)
    if end is None:
        refuse("BadLine", count + 1)
    return end, releases


def simulate(tasks, data):
    """The refusal of a release list for a feasible set without overruns, or None."""
    try:
        end, releases = releases_of(data)
        by_name = {it["name"]: it for it in tasks}
        for place, release in enumerate(releases, 1):
            if place > 1 and release[0] < releases[place - 2][0]:
                refuse("Unsorted", place)
        for place, (_, name, _) in enumerate(releases, 1):
            if name not in by_name:
                refuse("UnknownTask", place)
        last = {}
        for place, (time, name, _) in enumerate(releases, 1):
            if name in last and time < last[name] + by_name[name]["period"]:
                refuse("TooSoon", place)
            last[name] = time
        for place, (_, name, late) in enumerate(releases, 1):
            if late > by_name[name].get("jitter", 0):
                refuse("TooLate", place)
        if end > 60_000_000 or any(time + late >= end for time, _, late in releases):
            refuse("PastHorizon")
    except Refused as why:
        return f"refused: {why}\n"
    return None


def section_in(word):
    locks, span = word.split("@")
    at, length = span.split(":")
    return {"at": number_in(at), "len": number_in(length), "locks": [name_in(it) for it in locks.split("+")]}


def interrupt_in(word):
    period, cost = word.split(":")
    return number_in(period), number_in(cost)


def interrupt_faults(task):
    """The faults of what a put says of the node and of interrupts."""
    node = task.get("node", {})
    if any(number > (1000 if key == "release" else 10_000_000) for key, number in node.items()):
        refuse("BadOverhead")
    interrupts = task.get("interrupt", [])
    if len(interrupts) > 8 or not all(100 <= period <= 10_000_000 and cost <= period for period, cost in interrupts):
        refuse("BadInterrupt")


def put_in(words):
    task = {"name": name_in(words[0])}
    for key, word in zip(["weight", "period", "deadline", "cost"], words[1:5], strict=True):
        task[key] = number_in(word)
    words = words[5:]
    if words and words[0].count("=") == 1 and words[0].startswith("j="):
        task["jitter"] = number_in(words.pop(0)[2:])
    if words and words[0].count("=") == 1 and words[0].startswith("over="):
        over = words.pop(0)[5:]
        task["outranks"] = "all" if over == "*" else [name_in(it) for it in over.split("+")]
    if words and words[0].count("=") == 1 and words[0].startswith("node="):
        job, lock, release, late = map(number_in, words.pop(0)[5:].split("+"))
        task["node"] = {"job": job, "lock": lock, "release": release, "late": late}
    if words and words[0].count("=") == 1 and words[0].startswith("irq="):
        task["interrupt"] = [interrupt_in(it) for it in words.pop(0)[4:].split("+")]
    task["section"] = [section_in(it) for it in words]
    return task


def is_draft(word, opened):
    return 1 <= number_in(word) <= opened


def row_in(words, opened):
    """Whether the words are a line of a script; of a put the task."""
    kind, rest = words[0], words[1:]
    if kind == "open":
        return len(rest) == 1 and 1 <= number_in(rest[0]) <= 8
    if not rest or not is_draft(rest[0], opened):
        return False
    if kind == "put":
        return len(rest) >= 6 and put_in(rest[1:])
    if kind == "remove":
        return len(rest) == 2 and bool(name_in(rest[1]))
    if kind == "found":
        name_in(rest[1] if len(rest) > 1 else "")
        return len(rest) == 2 or (len(rest) == 3 and is_draft(rest[2], opened))
    return kind in ("test", "commit", "abandon") and len(rest) == 1


def script(data):
    """The refusal of a script, or None."""
    opened = 0
    for line, words in kept_lines(data)[0]:
        try:
            row = row_in(words, opened)
        except ValueError:
            row = False
        if row is False:
            return f"refused: BadLine {line}\n"
        if type(row) is dict:
            try:
                value_faults((), row)
                interrupt_faults(row)
            except Refused as why:
                return f"refused: line {line} {why}\n"
        opened += words[0] == "open"
    return None


def certificate(whole, data):
    """The refusal of a text that is a certificate but for one byte which no certificate has, or for a cut end."""
    lines, wanted = data.split(b"\n")[:-1], whole.split(b"\n")[:-1]
    for number, (line, right) in enumerate(zip(lines, wanted), 1):
        if line != right:
            return "refused: BadHead\n" if number == 1 else f"refused: BadLine {number}\n"
    return "refused: Truncated\n" if len(lines) < len(wanted) else None
