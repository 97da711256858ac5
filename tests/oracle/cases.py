"""A case: the words of a call and its inputs; how it is made, what is wanted of it, and how it is made smaller."""

import random
import time
from dataclasses import dataclass, replace

import analysis
import beside
import calls
import commands
import make_lines
import make_sets
import make_traces
import picture
import rushes
import sets
import ways
from chains import Chain
from refusals import Refused

# how often each command is asked
SHARES = {
    "admit": 12, "certify": 8, "check": 16, "explain": 8, "limits": 8, "settings": 5, "judge": 12, "diff": 10, "simulate": 12,
    "releases": 8, "worst": 8, "draw": 4, "observe": 12, "script": 3, "play": 20, "rush": 6, "words": 4,
}  # fmt: skip


@dataclass(frozen=True)
class Case:
    words: tuple
    files: dict  # bytes by path; a path that ends with `/` is that of an empty folder
    stdin: bytes = b""

    def subject(self):
        return self.words[0] if self.words and self.words[0] in commands.COMMANDS else "words"

    def wanted(self):
        return commands.answer(self.words, self.files, self.stdin)


def make(seed, number, only=None):
    rng = random.Random(f"{seed} {number}")
    subject = only or rng.choices(list(SHARES), SHARES.values())[0]
    if subject == "words":
        return deep(rng) if rng.random() < 0.2 else wrong_words(rng)
    if subject in ("play", "rush"):
        return called(rng, subject, [make_lines.script(rng, 0.15 if subject == "play" else 0.05)])
    return of_set(rng, subject)


SECOND_INPUTS = {
    "check": make_lines.certificate_of,
    "judge": make_lines.settings_of,
    "simulate": make_lines.releases_of,
    "draw": make_lines.releases_of,
    "observe": make_traces.trace_of,
}


# commands whose answers speak of chains
OF_CHAINS = ("admit", "certify", "check", "explain", "limits", "judge", "settings", "diff", "simulate", "draw", "observe")


def of_set(rng, subject):
    sheets = sheets_for(rng, subject)
    prefer = rng.choice([None] * 12 + ["deadline"] * 3 + ["weight", "chains"])  # what the words say
    own = rng.choice([None] * 6 + ["deadline"] * 2 + ["weight", "chains"])  # what the set says
    node = make_sets.overheads(rng, sheets) if rng.random() < 0.4 else None
    interrupts = make_sets.interrupts(rng) if rng.random() < 0.25 else []
    if sheets and (node or interrupts) and rng.random() < 0.4:
        sheets, interrupts = make_sets.padded_edge(rng, sheets, interrupts, lambda own, tables: taken(own, node, tables))
    tasks = taken(sheets, node, interrupts, prefer or own)
    is_by_chains = (prefer or own) == "chains"
    chains = make_sets.chains(rng, tasks) if rng.random() < (0.7 if is_by_chains else 0.5 if subject in OF_CHAINS else 0.1) else []
    if is_by_chains:
        tasks = sets.by_chains(tasks, [chain["tasks"] for chain in chains if chain.get("writes") != "deadline"])
    inputs = [set_input(rng, sheets, 0.08 if subject in SECOND_INPUTS else 0.3, own, node, interrupts, chains)]
    if subject in SECOND_INPUTS:
        more = [[chain_of(table) for table in chains]] if subject == "check" else []
        inputs.append(SECOND_INPUTS[subject](rng, tasks, *more))
    if subject == "diff":
        nodes = [node, node, None, {**(node or {}), "job": 40, "release": rng.choice([20, 40])}]
        others = [interrupts, interrupts, interrupts[1:], make_sets.interrupts(rng)]
        changed = make_sets.changed(rng, sheets)
        links = make_sets.other_chains(rng, chains, [sheet.name for sheet in changed])
        inputs.append(set_input(rng, changed, 0.1, rng.choice([own, own, None]), rng.choice(nodes), rng.choice(others), links))
    options = [] if prefer is None or rng.random() < 0.05 else [("prefer", prefer)]
    options += [("strict", None)] * (rng.random() < 0.15)
    if subject in ("explain", "limits", "worst") and rng.random() < 0.3:
        options.append(("task", rng.choice([*(sheet.name for sheet in sheets), "none", "0", ""])))
    if subject == "worst" and rng.random() < (0.7 if chains else 0.05):
        options.append(("chain", rng.choice([chain["name"] for chain in chains] * 3 + ["none", "0", ""])))
    if subject == "explain" and rng.random() < 0.4:
        options.append(("all", None))
    if subject in ("admit", "explain", "judge") and rng.random() < 0.3:
        options.append(("sort", "slack" if rng.random() < 0.95 else rng.choice(["", "level", "Slack", "slack "])))
    number = None
    if subject == "releases":
        seed = rng.choice([0, 1, rng.getrandbits(32), 2**32 - 1, 2**32]) if rng.random() < 0.6 else None
        options += [] if seed is None else [("seed", str(seed))]
        number = make_lines.until_of(rng, taken(sheets, node, interrupts), seed)
    if subject == "simulate" and rng.random() < (0.7 if chains else 0.3):
        options.append(("tasks", None))
    if subject == "draw":
        options += view_of(rng, sheets)
        if rng.random() < (0.7 if chains else 0.1):
            options.append(("chain", rng.choice([*[it["name"] for it in chains if isinstance(it.get("name"), str)] * 4, "none", "a b"])))
    if subject == "draw" and rng.random() < 0.4:
        changed = make_sets.changed(rng, sheets) if rng.random() < 0.8 else sheets
        inputs.append(set_input(rng, changed, 0.1, rng.choice([own, own, None]), node, interrupts))
        return called(rng, subject, inputs, options, by="beside")
    if subject == "observe" and rng.random() < 0.3:
        options.append(("tolerance", rng.choice(["0", "1", "5", str(rng.randint(0, 5000)), "60000000", "60000001", "", "-1"])))
    if subject == "observe" and rng.random() < 0.3:
        options.append(("jobless", None))
    if subject == "judge" and rng.random() < 0.3:
        options.append(("lower-is-higher", None))
        if rng.random() < 0.8:
            inputs[1] = make_lines.turned(inputs[1])
    if subject == "settings" and rng.random() < 0.3:
        options.append(("base", rng.choice(["1", "2", "80", "+007", "999968", "999969", "999970", "0"])))
    if subject == "settings" and rng.random() < 0.3:
        options.append(("room", rng.choice(["0", "1", "2", "4", "+030", "1000000", "1000001", "-1"])))
    if subject == "settings" and rng.random() < 0.5:
        others = make_sets.changed(rng, sheets) if rng.random() < 0.7 else sheets
        inputs.append(make_lines.settings_of(rng, sets.by_rank(others)))
        return called(rng, subject, inputs, options, by="keep")
    if subject in ("explain", "limits", "worst") and rng.random() < 0.4:
        inputs.append(make_lines.settings_of(rng, tasks))
        return called(rng, subject, inputs, options, by="at")
    return called(rng, subject, inputs, options, number)


def view_of(rng, sheets):
    """Options of a picture: often none, else some of them."""
    if rng.random() < 0.3:
        return []
    time = lambda: str(rng.choice([0, 60_000_000, 60_000_001] if rng.random() < 0.05 else [int(10 ** rng.uniform(0, 7))]))
    names = [sheet.name for sheet in sheets]
    some = rng.sample(names, rng.randint(0, len(names))) + rng.choice([[]] * 12 + [["none"], ["0"], [""], names[:1]])
    drawn = {
        "from": time(),
        "to": time(),
        "width": str(rng.choice([959, 960, 16_000, 16_001] if rng.random() < 0.2 else [rng.randint(960, 16_000)])),
        "print": rng.choice(["3", "4", "4", "+4", "2", "5"]),
        "title": title_of(rng),
        "tasks": rng.choice([",".join(some)] * 4 + ["all"]),
    }
    return [option for option in drawn.items() if rng.random() < 0.4]


def title_of(rng):
    """A title, some about as long as a picture has room for."""
    if rng.random() < 0.6:
        return rng.choice(["", "x", "R&D <hi>", "a  b\t\r\n", '"\u00e9\u20ac\x7f', "]]>", "\uffff\ufffea\ufffd\ufffe", "\uff5f\U0001ffff"])
    letters = rng.choice(["a", "a W&\u00e9\u07ff", "\u0800\u4e2d\uffff", "ab \u00e9\u4e2d\U0001f600"])
    count = rng.choice([rng.randint(10, 40), rng.randint(60, 75), rng.randint(1, 1700)])
    return "".join(rng.choices(letters, k=count))


def chain_of(table):
    """The chain that a table without faults says, without its limit."""
    return Chain(table["name"], tuple(table["tasks"]), None, table.get("writes", "finish"), tuple(table.get("offsets", ())))


def taken(sheets, node, interrupts, preference=None):
    """The tasks with what the node takes, if they have room for it, by a preference."""
    try:
        sheets = sets.padded(sheets, None if node is None else sets.read_node(node), sets.read_interrupts(interrupts))
    except Refused:
        pass
    return sets.by_limits(sheets) if preference == "deadline" else sets.by_rank(sheets)


def sheets_for(rng, subject):
    """Small sets where an answer takes long; mostly sets with an order where a command needs one."""
    most = 6 if subject == "limits" and rng.random() < 0.95 else 32
    sheets = make_sets.some_sheets(rng, most)
    if subject in ("simulate", "draw", "settings", "observe"):
        for _ in range(4):
            if not analysis.is_feasible(sets.by_rank(sheets)):
                sheets = make_sets.some_sheets(rng, most)
    return sheets


def set_input(rng, sheets, damaged, own=None, overheads=None, interrupts=(), chains=()):
    """The set as one document, as several of teams, or as a folder's files by their names; some are damaged."""
    if rng.random() < 0.88:
        return set_text(rng, sheets, damaged, own, overheads, interrupts, chains)
    owns = [None, own, own, own, rng.choice([None, "weight"])]
    nodes = [None, *[overheads] * 5, rng.choice([None, {"job": 1}, {}])]
    cut = rng.randint(0, len(interrupts))
    hands = [interrupts[:cut], interrupts[cut:]]
    hand = lambda: hands.pop(0) if hands and rng.random() < 0.6 else rng.choice([[]] * 9 + [interrupts])
    links = [[it] for it in chains]
    link = lambda: links.pop(0) if links and rng.random() < 0.7 else rng.choice([[]] * 9 + [list(chains[:2])])
    is_kept, said = rng.random() < 0.5, b""
    if is_kept and rng.random() < 0.7:
        said = set_text(rng, None, damaged, rng.choice(owns), rng.choice(nodes), hand(), link())
        if rng.random() < 0.7:
            owns, nodes, hands, interrupts = [None], [None], [], []
    parts = make_sets.teams_of(rng, sheets, lambda part: set_text(rng, part, damaged / 3, rng.choice(owns), rng.choice(nodes), hand(), link()))
    node = make_sets.node_of(rng, parts, sheets, said) if is_kept else None
    if rng.random() < 0.5:
        return make_sets.gathered(rng, parts, node)
    return make_sets.folder(rng, parts, node)


def set_text(rng, sheets, damaged, own=None, overheads=None, interrupts=(), chains=()):
    """The set as TOML with what it prefers, and its node, interrupts and chains, if any; one of two ways of damage at the
    given rate. Without sheets what else is said stands alone."""
    tables = [make_sets.table_of(rng, sheet) for sheet in sheets or []]
    prefers = {} if own is None else {"prefer": own}
    node = {} if overheads is None else {"node": overheads}
    more = {"interrupt": list(interrupts)} if interrupts or rng.random() < 0.01 else {}
    linked = {"chain": list(chains)} if chains or rng.random() < 0.01 else {}
    kind = rng.random()
    if kind < damaged / 2:
        if own is not None and rng.random() < 0.3:
            prefers = {"prefer": rng.choice(["", "deadlines", "name", 1, ["deadline"], True])}
        if overheads is not None and rng.random() < 0.5:
            node = {"node": make_sets.wrong_overheads(rng, overheads)}
        if interrupts and rng.random() < 0.5:
            more = {"interrupt": make_sets.wrong_interrupts(rng, list(interrupts))}
        if chains:
            linked = {"chain": make_sets.wrong_chains(rng, list(chains))}
        if chains and rng.random() < 0.7:
            return make_sets.toml(rng, prefers | ({} if sheets is None else {"task": tables}) | node | more | linked)
        return make_sets.toml(rng, prefers | ({} if sheets is None else make_sets.with_faults(rng, tables)) | node | more | linked)
    text = make_sets.toml(rng, prefers | ({} if sheets is None else {"task": tables}) | node | more | linked)
    return make_sets.damaged_bytes(rng, text) if kind < damaged else text


def called(rng, subject, inputs, options=(), number=None, by=None):
    """A call on inputs, of which one may come by standard input, and rarely one is missing; with options by name, of which
    one may name the second input."""
    words, files, stdin, options = [subject], {}, b"", list(options)
    piped = rng.randrange(len(inputs)) if rng.random() < 0.3 else None
    for place, data in enumerate(inputs):
        is_piped = place == piped and isinstance(data, bytes)
        path = "-" if is_piped else f"input{place + 1}"
        if by is not None and place == len(inputs) - 1:
            options.append((by, path))
        else:
            words.append(path)
        if is_piped:
            stdin = data
            continue
        if isinstance(data, dict):
            files |= {f"{path}/{name}": document for name, document in data.items()}
        elif rng.random() < 0.995:
            files[path] = data
    if number is not None:
        words.append(str(number))
    if subject == "script" and rng.random() < 0.6:
        words.append(str(rng.choice([1, 2, 3, 8, 8, 0, 9] if rng.random() < 0.1 else [1, 2, 8])))
    if subject == "rush":
        words.append(str(rng.choice([1, 1, 2, 3, 8, 8, 0, 9] if rng.random() < 0.1 else [1, 2, 3, 8])))
    for name, value in options:
        place = rng.choice([1, len(words)])
        spelled = [[f"--{name}"]] if value is None else [[f"--{name}", value], [f"--{name}={value}"]]
        words[place:place] = rng.choice(spelled)
    return Case(tuple(words), files, stdin)


WORDS = ["-", "--", "set", "set", "none", "folder", "--prefer", "deadline", "--prefer=deadline", "--prefer=weight", "--prefer=name", "--prefer=",
         "--task", "--task=a", "--task=", "--seed", "--seed=8", "--seed=4294967296", "--tasks", "--tasks=", "--tasks=a,a", "--from", "--from=8", "--to=60000001", "--width=959", "--width=960", "--print=4", "--print=5", "--print", "--title", "--title=x", "--tolerance", "--tolerance=8", "--jobless", "--jobless=1", "--base=1", "--base=0", "--base", "--room", "--room=1", "--lower-is-higher", "--lower-is-higher=1", "--keep", "--keep=set", "--keep=-", "--beside", "--beside=set", "--beside=-", "--at", "--at=set", "--at=-", "-x", "--x",
         "", "0", "1", "8", "9", "+8", "007", "+", "++8", "0x8", "-8", " 8", "8_0", "60000000", "60000001", "1" * 25]  # fmt: skip


def wrong_words(rng):
    """Words that no call has, and some that one has."""
    if rng.random() < 0.1:
        return Case(rng.choice(sorted(commands.HELP)), {})
    subject = rng.choice([*commands.COMMANDS, "Admit", "headroom", "set"])
    command = commands.COMMANDS.get(subject, commands.COMMANDS["admit"])
    words = [subject, *["set"] * len(command.readers), *["8"] * bool(command.number)]
    for _ in range(rng.choice([1, 1, 1, 2, 2, 3])):
        place = rng.randrange(len(words) + 1)
        words[place : place + rng.choice([0, 1, 1])] = rng.choice([[], [rng.choice(WORDS)], [rng.choice(WORDS)]])
    text = make_sets.toml(rng, {"task": [make_sets.table_of(rng, sheet) for sheet in make_sets.some_sheets(rng, 3)]})
    return Case(tuple(words), {"set": text, "folder/": b""}, text)


def deep(rng):
    """A document with brackets in brackets."""
    deep = rng.choice([2, 70, 79, 80, 81, 82, 200])
    text = rng.choice(["x = " + "[" * deep + "]" * deep, "[[task]]\nx = " + "{ a = " * deep + "1" + "}" * deep])
    return Case(("admit", "deep"), {"deep": text.encode()})


def fault_of(case, stdout, stderr, status):
    """What is wrong with what the program printed; None where nothing is."""
    wanted = case.wanted()
    printed, told = stdout.decode("latin-1"), stderr.decode("latin-1")
    if status != wanted.status:
        return f"status {status}, not {wanted.status}"
    if wanted.text is commands.RUSHED:
        is_possible = rushes.is_possible(*inputs_of(case), printed.splitlines(), told.splitlines())
        return None if is_possible else "no log of these lines"
    if told != wanted.told and (wanted.told is not commands.SAID or not told):
        return "something else on standard error"
    if wanted.text is commands.HELPED:
        return None if printed else "no help"
    if wanted.text is commands.DRAWN:
        tasks, said, *new = inputs_of(case)
        words = commands.keywords(calls.call_of(case.words, commands.COMMANDS))
        chain = words.pop("chain", None)
        view = picture.View(**words)
        if new:
            return beside.fault(stdout, view, tasks, new[0].read(), *said)
        if chain is not None:
            return ways.fault(stdout, view, tasks, *said, chain)
        return picture.fault(stdout, view, tasks, *said)
    return None if printed == wanted.text else "other bytes"


def inputs_of(case):
    """What the inputs of a picture or a rush say, where none is refused."""
    return commands.read_inputs(calls.call_of(case.words, commands.COMMANDS), case.files, case.stdin)


# Smaller cases


def smaller(case, still_differs, end):
    """A case that still differs and from which no one line, word or byte may go; or as far as it came by the end."""
    for splits in (lines_of, words_of, bytes_of):
        for path in [*case.files, None]:
            pieces = splits(case.stdin if path is None else case.files[path])
            size = len(pieces) // 2
            while size > 0:
                start = 0
                while start < len(pieces):
                    if time.monotonic() > end:
                        return case
                    attempt = with_input(case, path, b"".join(pieces[:start] + pieces[start + size :]))
                    if still_differs(attempt):
                        case, pieces = attempt, pieces[:start] + pieces[start + size :]
                    else:
                        start += size
                size //= 2
    return case


def with_input(case, path, data):
    if path is None:
        return replace(case, stdin=data)
    return replace(case, files={**case.files, path: data})


def lines_of(data):
    return data.splitlines(keepends=True)


def words_of(data):
    return [piece for word in data.split(b" ") for piece in (word, b" ")][:-1]


def bytes_of(data):
    return [data[k : k + 1] for k in range(len(data))]
