"""Random sets: valid ones, ones at the edge of a limit or of passing, and damaged ones, as TOML in many spellings."""

import copy
import math

import analysis
import chain_bounds
import limits
from sets import ALL, Section, Sheet, by_rank, sheet_fault

NAMES = [*"abcdefgh", "B", "Z9", "a-1", "a_1", "a1", "hi", "lo", "mid", "x" * 24, "until", "over", "thread", "end"]
LOCKS = ["m", "n", "bus", "L-2", "a", "k" * 24]


def some_sheets(rng, most=12):
    """A valid set's sheets, in no order."""
    count = min(most, rng.choice([0, 1, 1, 2, 2, 3, 3, 3, 4, 4, 5, 5, 6, 7, 8, 10, 12, 16, 32]))
    names = rng.sample(NAMES, count) if count <= len(NAMES) else [f"t{k}" for k in range(count)]
    locks = rng.sample(LOCKS, rng.choice([0, 1, 1, 2, 3, 5]))
    weights = rng.choice([[0], [0, 1], [0, 5, 1000], range(1001)])
    late, bound = rng.random() < 0.35, rng.random() < 0.3
    period_of = rng.choice([small_period, harmonic_period, any_period])
    total = rng.uniform(0.2, 1.1)
    shares = [rng.expovariate(1) for _ in names]
    out = []
    for name, share in zip(names, shares):
        period = period_of(rng)
        cost = min(period, max(1, int(period * total * share / sum(shares))))
        deadline = rng.choice([period, period, rng.randint(max(1, period // 2), period), rng.randint(1, period)])
        sheet = Sheet(name, rng.choice(weights), period, deadline, cost, sections(rng, cost, locks))
        if late and rng.random() < 0.5:
            most_late = rng.choice([1, 10, deadline // 10, deadline - 1])
            sheet = sheet._replace(jitter=rng.randint(0, min(most_late, deadline - 1)))
        if bound and rng.random() < 0.4:
            others = [other for other in names if other != name] + ["absent"]
            named = tuple(rng.sample(others, min(len(others), rng.choice([1, 1, 2, 8]))))
            sheet = sheet._replace(outranks=ALL if rng.random() < 0.25 else named)
        assert not sheet_fault(sheet)
        out.append(sheet)
    if out and rng.random() < 0.5:
        out = at_edge(rng, out)
    return out


def small_period(rng):
    return rng.randint(1000, 9000)


def harmonic_period(rng):
    return 1000 * rng.choice([1, 2, 4, 5, 10, 20, 50, 100])


def any_period(rng):
    return min(10_000_000, int(1000 * 10 ** rng.uniform(0, 4.01)))


def sections(rng, cost, locks):
    out, end = [], 0
    for _ in range(rng.choice([0, 0, 1, 1, 2, 3, 8]) if locks else 0):
        at = end + rng.choice([0, 0, 1, rng.randint(0, cost)])
        if at >= cost:
            break
        length = rng.choice([1, rng.randint(1, cost - at), rng.randint(1, max(1, (cost - at) // 4)), cost - at])
        out.append(Section(tuple(rng.sample(locks, rng.randint(1, min(4, len(locks))))), at, length))
        end = at + length
    return tuple(out)


def at_edge(rng, out):
    """One number moved to where the answer turns, or one past it."""
    tasks = by_rank(out)
    i = rng.randrange(len(tasks))
    task = tasks[i]
    if rng.random() < 0.5:
        number = rng.choice(limits.numbers_of(task))
        most = limits.furthest(tasks, i, number)
        value = number.value(task) if most is None else most
        changed = number.with_value(task, max(0, value + rng.choice([0, 1, -1])))
    else:
        order = analysis.best_order(tasks)
        if order is None:
            return out
        above = set(order[order.index(i) + 1 :])
        spare = task.deadline - analysis.response_of(tasks, i, above)
        changed = task._replace(deadline=task.deadline - spare - rng.randint(0, 1))
        if rng.random() < 0.4:
            changed = task._replace(jitter=task.jitter + spare + rng.randint(0, 1))
    if sheet_fault(changed):
        return out
    return [changed if sheet.name == task.name else sheet for sheet in out]


def overheads(rng, sheets):
    """What a node takes: little, or as much as some task has room for, or one more; its timer at most all that a job
    takes."""
    out = {}
    for key in rng.sample(["job", "lock", "late"], rng.choice([0, 1, 2, 3, 3, 3])):
        room = [rng.choice([0, 1, 3, 20, 100])]
        if sheets and rng.random() < 0.3:
            sheet = rng.choice(sheets)
            locks = sum(len(part.locks) for part in sheet.sections)
            spare = {"job": sheet.period - sheet.cost, "late": sheet.limit - 1, "lock": (sheet.period - sheet.cost) // max(1, locks)}
            room += [min(other.limit for other in sheets) - 1, spare[key], spare[key] + 1, spare[key] // 2]
        out[key] = rng.choice(room)
    if rng.random() < 0.7:
        most = min(1000, out.setdefault("job", rng.choice([0, 1, 20, 100])))
        out["release"] = rng.choice([min(1, most), most, most, most // 2, most + (rng.random() < 0.2)])
    return out


def wrong_overheads(rng, node):
    """One fault or two in what a node says it takes."""
    node = dict(node)
    for _ in range(rng.choice([1, 1, 2])):
        key = rng.choice(["job", "lock", "late", "release", "release", "interrupt", "Job", ""])
        node[key] = copy.deepcopy(rng.choice(VALUES))
    return rng.choice([node, node, node, node, *VALUES])


def interrupts(rng):
    """Those of a node, as tables: few that take little, and now and then as many or as much as may be."""
    out = []
    for _ in range(rng.choice([1, 1, 1, 2, 3, 8, 9] if rng.random() < 0.2 else [1, 1, 2])):
        period = rng.choice([4000, 1000, any_period(rng), rng.randint(100, 999), rng.choice([100, 99, 10_000_000])])
        most = min(period, rng.choice([0, 1, 20, period // 20, period // 20, period // 4]))
        out.append({"period": period, "cost": period if rng.random() < 0.02 else rng.randint(min(1, most), most)})
    return out


def chains(rng, tasks):
    """Tables of chains of a set's tasks, with limits that are near their bounds in its best order, if it has one."""
    names, order = [task.name for task in tasks], analysis.best_order(tasks)
    bounds = {} if order is None else {i: analysis.response_of(tasks, i, above) for _, i, above in analysis.levels_of(order)}
    out, clock = [], {}
    for name in rng.sample([*NAMES, "steer", "chain"], rng.choice([1, 1, 1, 2, 3, 16])):
        own = rng.sample(range(len(tasks)), min(len(tasks), rng.choice([1, 2, 2, 3, 3, 4, 8])))
        writes = rng.choice(["finish", "finish", "deadline"])
        table = {"name": name, "tasks": [names[i] for i in own]}
        if writes == "deadline" or rng.random() < 0.1:
            table["writes"] = writes
        is_soon = is_soon_again(tasks, own, 10_000)
        if rng.random() < (0.4 if is_soon_again(tasks, own, 60) else 0.01):
            table["offsets"] = [clock.setdefault(names[i], offset(rng, tasks[i].period)) for i in own]
        bound = 10 ** rng.uniform(3, 9)
        if order is not None:
            known = table.get("offsets", ()) if is_soon else ()
            bound = sum(time for _, time in chain_bounds.parts(tasks, order, bounds, own, writes, known))
        for key in ("age", "reaction"):
            if rng.random() < 0.5:
                table[key] = min(1_000_000_000, max(1, int(bound) + rng.choice([-1, 0, 1, 500, -500, 10_000])))
        out.append(table)
    return [table for table in out if table["tasks"] or rng.random() < 0.1]


def is_soon_again(tasks, own, most):
    """Whether so many arrivals of the first task come at most until all these tasks arrive as at first."""
    periods = [tasks[i].period for i in own]
    return not own or math.lcm(*periods) <= most * periods[0]


def offset(rng, period):
    """When a task arrives first on a clock; now and then at its period, which is too late."""
    return rng.choice([0, 0, 1, period // 2, period - 1, *[rng.randrange(period) for _ in range(4)]]) + period * (rng.random() < 0.005)


def other_chains(rng, tables, names):
    """The tables of chains of a changed set: some are gone, new or others, and mostly all of its tasks' names."""
    out = [copy.deepcopy(table) for table in tables if rng.random() < 0.85]
    for table in out:
        if rng.random() < 0.95:
            table["tasks"] = [name for name in table["tasks"] if name in names] or rng.sample(names, min(1, len(names)))
        if rng.random() < 0.2:
            table["tasks"] = rng.sample(names, min(len(names), rng.choice([1, 2, 3])))
        if rng.random() < 0.2:
            table["age"] = rng.choice([1, 1_000_000_000, rng.randint(1, 1_000_000)])
        if rng.random() < 0.1:
            table.pop("age", None)
        if rng.random() < 0.1:
            table["writes"] = rng.choice(["finish", "deadline"])
        if len(table.get("offsets", table["tasks"])) != len(table["tasks"]) or rng.random() < 0.1:
            table.pop("offsets", None)
        elif rng.random() < 0.05:
            table["offsets"] = [rng.choice([0, 0, 1, 999]) for _ in table["tasks"]]
    if names and rng.random() < 0.3:
        out.append({"name": rng.choice([*NAMES, "steer", "chain"]), "tasks": rng.sample(names, min(len(names), 2))})
    rng.shuffle(out)
    firsts = {table["name"]: table for table in reversed(out)}
    return out if rng.random() < 0.02 else [table for table in out if firsts[table["name"]] is table and table["tasks"]]


def wrong_chains(rng, tables):
    """One fault or two in the tables of chains."""
    tables = copy.deepcopy(tables)
    for _ in range(rng.choice([1, 1, 2])):
        table = rng.choice(tables)
        key = rng.choice(["name", "tasks", "age", "reaction", "writes", "offsets", "task"])
        kind = rng.randrange(9)
        if kind == 0:
            table.pop(key, None)
        elif kind == 1:
            table[key] = copy.deepcopy(rng.choice(VALUES))
        elif kind == 8:
            wrong_offsets(rng, table)
        elif kind == 2:
            table[rng.choice(["age", "reaction"])] = rng.choice([0, 1, 1_000_000_000, 1_000_000_001, -1, 2**63 - 1])
        elif kind == 3 and isinstance(table.get("tasks"), list):
            more = rng.choice([["absent"], ["1"], table["tasks"][:1], [f"t{k}" for k in range(9)], [1]])
            table["tasks"] = rng.choice([[], more, table["tasks"] + more])
        elif kind == 4:
            table["name"] = rng.choice(tables).get("name", "a")
        elif kind == 5:
            table["writes"] = rng.choice(["finish", "deadline", "Deadline", "finish ", "", "at", True, ["deadline"]])
        elif kind == 6:
            tables += [{**copy.deepcopy(table), "name": f"c{k}"} for k in range(rng.choice([14, 15, 16]))]
        else:
            tables += [copy.deepcopy(table)]
    return tables


def wrong_offsets(rng, table):
    """One fault in a chain's offsets, or none."""
    count = len(listed(table.get("tasks")))
    offsets = table.setdefault("offsets", [0] * count)
    kind = rng.randrange(4)
    if kind == 0 or not listed(offsets):
        table["offsets"] = [0] * max(0, count + rng.choice([-1, 0, 1]))
    elif kind == 1:
        offsets[rng.randrange(len(offsets))] = copy.deepcopy(rng.choice(VALUES))
    elif kind == 2:
        offsets[rng.randrange(len(offsets))] = rng.choice([0, 1, 999, 1000, 9_999_999, 2**63 - 1])
    else:
        table["offsets"] = copy.deepcopy(offsets) + [0] * rng.choice([0, 0, 1])


def wrong_interrupts(rng, tables):
    """One fault or two in a node's interrupts."""
    tables = copy.deepcopy(tables)
    for _ in range(rng.choice([1, 1, 2])):
        table = rng.choice(tables)
        key = rng.choice(["period", "cost", "cost", "Cost", "job"])
        kind = rng.randrange(4)
        if kind == 0:
            table.pop(key, None)
        elif kind == 1:
            table[key] = copy.deepcopy(rng.choice(VALUES))
        elif kind == 2:
            table["cost"] = table.get("period", 1)
        elif type(table.get(key)) is int:
            table[key] += rng.choice([-1, 1])
    if rng.random() < 0.1:
        tables += tables * 8
    if rng.random() < 0.1:
        tables[rng.randrange(len(tables))] = copy.deepcopy(rng.choice(VALUES))
    return rng.choice([tables] * 8 + VALUES)


def padded_edge(rng, sheets, tables, taken):
    """A deadline or an interrupt's cost moved to where the answer turns with what the node takes, or one past it; `taken`
    makes the tasks of sheets and interrupts."""
    tasks = taken(sheets, tables)
    if tables and rng.random() < 0.6:
        place = rng.randrange(len(tables))
        costs = range(tables[place]["period"] + 1)
        with_cost = lambda cost: [*tables[:place], {**tables[place], "cost": cost}, *tables[place + 1 :]]
        most = limits.last_that(costs, lambda cost: analysis.is_feasible(taken(sheets, with_cost(cost))))
        if most is not None:
            tables = with_cost(min(costs[-1], most + rng.randint(0, 1)))
        return sheets, tables
    order = analysis.best_order(tasks)
    if order is None:
        return sheets, tables
    place = rng.randrange(len(order))
    task = tasks[order[place]]
    spare = task.deadline - analysis.response_of(tasks, order[place], set(order[place + 1 :]))
    deadline = task.deadline - spare - rng.randint(0, 1)
    changed = [sheet._replace(deadline=deadline) if sheet.name == task.name else sheet for sheet in sheets]
    return sheets if any(map(sheet_fault, changed)) else changed, tables


# Changes of sets


def near(rng, sheets):
    """One sheet with another number."""
    place = rng.randrange(len(sheets))
    number = rng.choice([*limits.numbers_of(sheets[place]), None])
    step = rng.choice([-1, 1, -100, 100])
    changed = sheets[place]
    if number is None:
        changed = changed._replace(weight=max(0, changed.weight + step))
    else:
        changed = number.with_value(changed, max(0, number.value(changed) + step))
    return sheets if sheet_fault(changed) else [*sheets[:place], changed, *sheets[place + 1 :]]


def changed(rng, sheets):
    """A set near another: numbers, names, locks, and whole tasks that come, go or swap their names."""
    sheets = list(sheets)
    for _ in range(rng.choice([0, 1, 1, 1, 2, 2, 3])):
        kind = rng.randrange(7)
        if kind == 0 or not sheets:
            fresh = [sheet for sheet in some_sheets(rng, 3) if sheet.name not in [other.name for other in sheets]]
            sheets = [*sheets, *fresh][:32]
        elif kind == 1:
            sheets.pop(rng.randrange(len(sheets)))
        elif kind == 2 and len(sheets) > 1:
            one, other = rng.sample(range(len(sheets)), 2)
            names = sheets[one].name, sheets[other].name
            sheets[one], sheets[other] = sheets[one]._replace(name=names[1]), sheets[other]._replace(name=names[0])
        elif kind == 3:
            sheets = [without_order(rng, sheet) for sheet in sheets]
        else:
            sheets = near(rng, sheets)
    return [sheet._replace(outranks=()) if sheet_fault(sheet) else sheet for sheet in sheets]


def without_order(rng, sheet):
    """The same locks and names to outrank in another order."""
    parts = [part._replace(locks=tuple(rng.sample(part.locks, len(part.locks)))) for part in sheet.sections]
    named = ALL if sheet.outranks == ALL else tuple(rng.sample(sheet.outranks, len(sheet.outranks)))
    return sheet._replace(sections=tuple(parts), outranks=named)


# Documents of several teams

TEAMS = ["arm", "cam", "a", "a-", "a1", "B", "x" * 24]


def teams_of(rng, sheets, text_of):
    """Some teams with a document of each; the sheets are dealt out, and rarely one stands in two."""
    teams = rng.sample(TEAMS, rng.choice([1, 2, 2, 3, 5]))
    hands = {team: [] for team in teams}
    for sheet in sheets:
        hands[rng.choice(teams)].append(sheet)
    if sheets and rng.random() < 0.15:
        sheet = rng.choice(sheets)
        hand = hands[rng.choice(teams)]
        if sheet not in hand:
            hand.append(sheet)
    return [(team, text_of(hand)) for team, hand in hands.items()]


def node_of(rng, parts, sheets, said=b""):
    """The node's document, which says this for all: what teams may take, near what they take, and which may say what is the
    node's; some of it is wrong."""
    total, longest = int(1000 * analysis.share_of_tasks(sheets)), max((part.len for sheet in sheets for part in sheet.sections), default=0)
    out, free = "", rng.random() < 0.4
    for team in rng.sample([team for team, _ in parts], len(parts) if free else rng.randrange(len(parts) + 1)):
        out += rng.choice([f"[team.{team}]\n", f"[team.{team}]\n", f'[team."{team}"]\n'])
        keys = {"load": [total, total + 1, total // 2, 1000, rng.randrange(1000)], "section": [longest, longest - 1, 1000, 0]}
        for key in rng.sample(list(keys), rng.choice([0, 1, 1, 2])):
            out += f"{key} = {max(0, rng.choice(keys[key]))}\n"
        if free or rng.random() < 0.3:
            out += f"node = {rng.choice(['true'] * 40 + ['false', '1', '[]'])}\n"
        if rng.random() < 0.08:
            out += rng.choice(["extra = 1\n", 'load = "1"\n', "section = -1\n", "load = 1.0\n", "section = [1]\n", "load = true\n"])
    if rng.random() < 0.08:
        out = rng.choice(["x = 1\n", "team = 1\n", "team = []\n", "[team]\ncam = 1\n", '[team."1"]\n', "[team.nobody]\n", "[[task]]\n"]) + out
    if rng.random() < 0.3:
        out = locks_of(rng, sheets) + out
    if rng.random() < 0.25:
        said = f"strict = {rng.choice(['true'] * 12 + ['false'] * 3 + ['1', '[]'])}\n".encode() + said
    return said + out.encode()


def locks_of(rng, sheets):
    """A list of locks that has mostly each that a set uses, some under second names; some of it is wrong."""
    used = sorted({lock for sheet in sheets for part in sheet.sections for lock in part.locks} | set(rng.sample(LOCKS, 2)))
    if used and rng.random() < 0.35:
        used.remove(rng.choice(used))
    out = {lock: "true" for lock in used}
    for lock in rng.sample(used, rng.choice([0, 0, 1, 1, 2]) if len(used) > 2 else 0):
        out[lock] = f'"{rng.choice(used)}"'
    if rng.random() < 0.1:
        out[rng.choice(["new", "1", *used])] = rng.choice(["true", "false", "1", '"none"', "[]", '"new"'])
    return "[locks]\n" + "".join(f'"{lock}" = {value}\n' for lock, value in out.items())


def gathered(rng, parts, node=None):
    """One text of documents, of which a team may have several; some heads are wrong."""
    if rng.random() < 0.2:
        parts = [(parts[0][0], document) for _, document in parts[:2]] + parts[2:]
    out = b"" if node is None else b"#%% %d\n%s" % (len(node) + (rng.random() < 0.03), node)
    for team, document in parts:
        head = f"#% {team} {len(document)}\n"
        if rng.random() < 0.06:
            head = rng.choice([
                head[1:], head[:-1], head.replace(" ", "  "), f"#% {team} {len(document) + rng.choice([-1, 1])}\n",
                f"#% {team} 0{len(document)}\n", f"#% {team} +{len(document)}\n", f"#% {rng.choice(NAMES)} {len(document)}\n",
                f"#% 1{team} {len(document)}\n", f"#% {team} {len(document)} \n", f"#% {team} {len(document)}\r\n", f"#% {team}\n",
                f"#% {team} 99999999999\n", f"\ufeff{head}", f"# {head}",
            ])  # fmt: skip
        out += head.encode() + document
    return damaged_bytes(rng, out) if rng.random() < 0.05 else out


def folder(rng, parts, node=None):
    """The files of a folder by their names; some aren't a team's document."""
    files = {f"{team}.toml": document for team, document in parts}
    if node is not None:
        files["node.toml"] = node
    if rng.random() < 0.2:
        files[rng.choice(["README", "a.tom", "toml", ".toml", ".a.toml", "1.toml", "a.b.toml", "b.TOML", "sub/c.toml", "d.toml/x", "e.toml/"])] = b"x"
    return files or {"": b""}


# As tables, with faults


def section_table(rng, section, end):
    """Where the section before it ends its `at` is mostly left out, and elsewhere now and then, which moves it there."""
    table = {"locks": list(section.locks), "at": section.at, "len": section.len}
    if rng.random() < (0.6 if section.at == end else 0.03):
        del table["at"]
    return table


def table_of(rng, sheet):
    table = {key: getattr(sheet, key) for key in ("name", "weight", "period", "deadline", "cost", "jitter")}
    ends = [0, *(it.end for it in sheet.sections)]
    table["section"] = [section_table(rng, *it) for it in zip(sheet.sections, ends)]
    table["outranks"] = ALL if sheet.outranks == ALL else list(sheet.outranks)
    for key in ("weight", "jitter", "section", "outranks"):
        if not table[key]:
            del table[key]
    return table


NUMBERS = [0, 1, 2, 999, 1000, 1001, 9_999_999, 10_000_000, 10_000_001, -1, 2**31, 2**63 - 1, 2**63, -(2**63)]
VALUES = [*NUMBERS, 0.0, 1.5, True, "", "a", "9z", "x" * 25, "\u00e9", "a b", [], {}, [1], ["a"], ["a", "a"], [{}], [{}, 1]]


def with_faults(rng, tables):
    """Some faults in the tables of a set; the first in the fixed order is to be answered."""
    root = {"task": tables}
    for _ in range(rng.choice([1, 1, 1, 2, 3, 5])):
        whole = [table for table in tables if isinstance(table, dict)]
        table = rng.choice([root, *whole * 3])
        parts = [part for part in listed(table.get("section")) if isinstance(part, dict)]
        if parts and rng.random() < 0.5:
            table = rng.choice(parts)
        if whole and rng.random() < 0.5:
            past_limit(rng, rng.choice(whole), whole)
        else:
            one_fault(rng, table, whole, is_root=table is root)
    return root


def past_limit(rng, task, whole):
    """A number or list of a task at a limit or one past it."""
    number = lambda key: task[key] if type(task.get(key)) is int else 0
    key, value = rng.choice([
        ("weight", 1000), ("weight", 1001), ("period", 999), ("period", 10_000_000), ("period", 10_000_001), ("deadline", 0),
        ("deadline", number("period") + 1), ("cost", 0), ("cost", number("period")), ("cost", number("period") + 1),
        ("jitter", number("deadline") - 1), ("jitter", number("deadline")), ("name", rng.choice(whole).get("name", "a")),
        ("name", "x" * 25), ("outranks", [f"z{k}" for k in range(rng.choice([8, 9]))]), ("outranks", ["z", "y", "z"]),
        ("outranks", [task.get("name", "a")]), ("outranks", ["1z"]), ("outranks", rng.choice(["all", "all", "All", ["all"], "*"])),
        *[("section", None)] * 6,
    ])  # fmt: skip
    task[key] = value if key != "section" else sections_past_limit(rng, number("cost"))


def sections_past_limit(rng, cost):
    count = rng.choice([1, 2, 3, 8, 9])
    parts = [{"locks": ["m"], "at": 2 * k, "len": 2} for k in range(count)]
    part = rng.choice(parts)
    key, value = rng.choice([
        ("at", 2 * count - 1), ("at", 2 * count - 3), ("len", 0), ("len", cost), ("len", max(0, cost - part["at"])),
        ("len", max(0, cost - part["at"] + 1)), ("locks", []), ("locks", ["m", "n", "m"]), ("locks", ["L1", "L2", "L3", "L4"]),
        ("locks", ["L1", "L2", "L3", "L4", "L5"]), ("locks", ["m", ""]), ("at", 2**63 - 1), ("len", 2**63 - 1),
    ])  # fmt: skip
    part[key] = value
    if rng.random() < 0.3:
        for other in parts[1:]:
            del other["at"]
    return parts


def listed(value):
    return value if isinstance(value, list) else []


def one_fault(rng, table, whole, is_root):
    key = rng.choice(list(table) or ["name"])
    value = table.get(key)
    kind = rng.randrange(8)
    if kind == 0:
        key = rng.choice(["x", "tasks", "Name", "lock", "at", "task", "section", "jitter", "outranks"])
        table[key] = copy.deepcopy(rng.choice(VALUES))
    elif kind == 1:
        table.pop(key, None)
    elif kind == 2 and (not is_root or rng.random() < 0.2):
        table[key] = copy.deepcopy(rng.choice(VALUES))
    elif kind == 3 and type(value) is int:
        table[key] = max(0, value + rng.choice([-1, 1]))
    elif kind == 4 and type(value) is int:
        table[key] = rng.choice([other for other in table.values() if type(other) is int]) + rng.choice([-1, 0, 1])
    elif kind == 5 and isinstance(value, list):
        table[key] = copy.deepcopy(value * rng.choice([2, 5, 9, 33]))
    elif kind == 6 and listed(value):
        value[rng.randrange(len(value))] = copy.deepcopy(rng.choice(VALUES))
    elif kind == 7 and whole and not is_root:
        table["name"] = rng.choice(whole).get("name", "a")


# As TOML


def toml(rng, root):
    """The root's text in one of many spellings."""
    plain = rng.random() < 0.5
    text = "" if plain else rng.choice(["", "# a set\n", "\n", "\ufeff"])
    tables = root.get("task")
    blocks = isinstance(tables, list) and all(isinstance(t, dict) for t in tables) and rng.random() < 0.8
    heads = []
    for key, value in root.items():
        if key == "node" and isinstance(value, dict) and all(value) and rng.random() < 0.8:
            lines = [f"{spelled_key(rng, name, plain)} = {spelled(rng, part, plain)}\n" for name, part in value.items()]
            if lines and rng.random() < 0.2:
                text += "".join(f"node.{line}" for line in lines)
            else:
                heads.append("[node]\n" + "".join(lines))
        elif key == "interrupt" and isinstance(value, list) and value and all(isinstance(it, dict) for it in value) and rng.random() < 0.8:
            heads += [block(rng, it, plain, "interrupt") for it in value]
        elif key == "chain" and isinstance(value, list) and value and all(isinstance(it, dict) for it in value) and rng.random() < 0.8:
            heads += [block(rng, it, plain, "chain") for it in value]
        elif key != "task" or not blocks:
            text += f"{spelled_key(rng, key, plain)} = {spelled(rng, value, plain)}\n"
    last = rng.random() < 0.3
    text += "" if last or not (blocks and tables) else "".join(heads)
    if blocks and tables:
        text += "\n".join(block(rng, table, plain) for table in tables)
    elif blocks and rng.random() < 0.5 and "task" in root:
        text += "task = []\n"
    text += "".join(heads) if last or not (blocks and tables) else ""
    if not plain and rng.random() < 0.1:
        text = text.replace("\n", "\r\n")
    return text.encode()


def block(rng, table, plain, word="task"):
    parts = table.get("section")
    below = isinstance(parts, list) and parts and all(isinstance(p, dict) for p in parts) and rng.random() < 0.3
    lines = [rng.choice(["[[task]]", "[[task]]", "[[ task ]]", '[["task"]] # one']) if not plain else "[[task]]"]
    lines = [line.replace("task", word) for line in lines]
    for key, value in table.items():
        if not (below and key == "section"):
            lines.append(f"{spelled_key(rng, key, plain)} = {spelled(rng, value, plain)}")
    if below:
        for part in parts:
            lines.append("[[task.section]]")
            lines += [f"{spelled_key(rng, key, plain)} = {spelled(rng, value, plain)}" for key, value in part.items()]
    return "\n".join(lines) + "\n"


def spelled_key(rng, key, plain):
    return key if plain or rng.random() < 0.8 else rng.choice([f'"{key}"', f"'{key}'"])


def spelled(rng, value, plain):
    if isinstance(value, bool):
        return "true" if value else "false"
    if isinstance(value, int):
        if plain or value < 0 or rng.random() < 0.8:
            return str(value)
        return rng.choice([f"{value:_}", hex(value), oct(value), bin(value), f"+{value}", f"0x{value:X}"]) if value else "-0"
    if isinstance(value, float):
        return str(value)
    if isinstance(value, str):
        if plain or rng.random() < 0.8:
            return '"' + value + '"'
        escaped = "".join(rng.choice([c, c, f"\\u{ord(c):04x}", f"\\U{ord(c):08X}", f"\\x{ord(c):02x}"]) for c in value)
        return rng.choice([f"'{value}'", f'"{escaped}"', f'"""{value}"""', f"'''\n{value}'''"])
    gap = "" if plain else rng.choice(["", " ", "\n", " # why\n", "\t"])
    if isinstance(value, list):
        inner = ", ".join(spelled(rng, part, plain) for part in value)
        return f"[{gap}{inner}{',' if gap and value else ''}{gap}]"
    gap = gap if rng.random() < 0.3 else " "
    inner = ", ".join(f"{spelled_key(rng, key, plain)} = {spelled(rng, part, plain)}" for key, part in value.items())
    return f"{{{gap}{inner}{',' if '#' in gap and value else ''}{gap}}}"


# Damaged bytes

SIGNS = b'[]{}=,."\'#\n\r\t _-+0123456789abetkx\\\xc3\xa9\x00\x7f:'


def damaged_bytes(rng, data):
    data = bytearray(data)
    for _ in range(rng.choice([1, 1, 2, 3])):
        place = rng.randrange(len(data) + 1)
        kind = rng.randrange(6)
        if kind == 0:
            data[place:place] = bytes([rng.choice(SIGNS)])
        elif kind == 1:
            del data[place : place + rng.choice([1, 1, 2, 10])]
        elif kind == 2:
            data[place : place + 1] = bytes([rng.choice([rng.choice(SIGNS), rng.randrange(256)])])
        elif kind == 3:
            other = rng.randrange(len(data) + 1)
            data[place:place] = data[other : other + rng.choice([1, 5, 30])]
        elif kind == 4 and rng.random() < 0.3:
            del data[place:]
        elif kind == 5 and len(data) > place + 1:
            data[place], data[place + 1] = data[place + 1], data[place]
    return bytes(data)
