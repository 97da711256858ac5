"""Random certificates, release lists, settings and scripts: good ones, ones near a limit, and damaged ones."""

import re

import analysis
import certificate
import desk
import kernel
import make_sets
import scripts
import settings
from certificate import Best, Fails, Level, Nothing, Of
from lines import Faulty
from refusals import Refused
from sets import ALL, by_rank

NUMBERS = ["0", "1", "2", "8", "9", "32", "33", "999", "1000", "1001", "65", "00", "01", "-1", "+1", "9999999999", "10000000000",
           "60000000", "60000001", "10000000", "10000001", "1000000", "1000001", "1e3", "", "0x1", "4294967296"]  # fmt: skip


def damaged_lines(rng, data):
    """Some faults in lines and words; at times in bytes."""
    if rng.random() < 0.15:
        return make_sets.damaged_bytes(rng, data)
    lines = data.decode("latin-1").split("\n")
    for _ in range(rng.choice([1, 1, 1, 2, 3])):
        place = rng.randrange(len(lines))
        words = lines[place].split(" ")
        word = rng.randrange(len(words))
        kind = rng.randrange(15)
        if kind == 14:
            lines[place] = re.sub(r"(?<!\d)(\d+)$", r"0\1", lines[place])
        elif kind == 0:
            lines.insert(place, rng.choice(["", "#", "# said", " ", "x", "end", "until 5"]))
        elif kind == 1 and len(lines) > 1:
            del lines[place]
        elif kind == 2:
            lines.insert(rng.randrange(len(lines)), lines[place])
        elif kind == 3:
            other = rng.randrange(len(lines))
            lines[place], lines[other] = lines[other], lines[place]
        elif kind == 4:
            lines[place] = rng.choice([f" {lines[place]}", f"{lines[place]} ", lines[place] + "\r", lines[place] + "\t"])
        elif kind == 5:
            lines[place] = lines[place].replace(" ", "  ", 1)
        elif kind == 6 and len(words) > 1:
            del words[word]
            lines[place] = " ".join(words)
        elif kind in (7, 8):
            words[word] = rng.choice(rng.choice(lines).split(" "))
            lines[place] = " ".join(words)
        elif kind == 9:
            words.insert(word, rng.choice(rng.choice(lines).split(" ")))
            lines[place] = " ".join(words)
        elif kind in (10, 11, 12):
            digits = list(re.finditer(r"\d+", lines[place]))
            if digits:
                hit = rng.choice(digits)
                near = [str(max(0, int(hit[0]) + step)) for step in (-1, 1)]
                number = rng.choice([*near, *near, rng.choice(NUMBERS)])
                lines[place] = lines[place][: hit.start()] + number + lines[place][hit.end() :]
        elif kind == 13 and rng.random() < 0.5:
            return "\n".join(lines).rstrip("\n").encode("latin-1")
    return "\n".join(lines).encode("latin-1")


def with_gaps(rng, data):
    """The same lines with empty ones and comments between them; the last may lack its end."""
    lines = data.decode().split("\n")[:-1]
    for _ in range(rng.choice([0, 0, 1, 3])):
        lines.insert(rng.randrange(len(lines) + 1), rng.choice(["", "# why", "#", "#\u00e9 \t"]))
    return ("\n".join(lines) + rng.choice(["\n", "\n", ""])).encode()


# Certificates


def certificate_of(rng, tasks, chains):
    """Of a set with these chains: its own, another one that is ready, or one of a set that is near it; at times damaged."""
    kind = rng.random()
    if kind < 0.25:
        text = certificate.certify(tasks, chains)
    elif kind < 0.45 and tasks:
        near = by_rank(make_sets.near(rng, list(tasks)))
        names = {task.name for task in near}
        text = certificate.certify(near, [chain for chain in chains if names.issuperset(chain.tasks)])
    else:
        text = other_certificate(rng, tasks, chains)
    data = text.encode()
    return damaged_lines(rng, data) if rng.random() < 0.35 else data


def other_certificate(rng, tasks, chains):
    """As ready as it comes: greater numbers, chains that leap less, other obstructions, other orders."""
    body = certificate.verdict_of(tasks, chains)
    needed = certificate.needed_version(tasks, isinstance(body, Best) and chains)
    version = rng.choice([1, 2, 4, 5] if rng.random() < 0.1 else {1: [1, 2], 2: [2], 4: [4], 5: [5]}[needed])
    if isinstance(body, Nothing):
        members = body.members
        index = {task.name: i for i, task in enumerate(tasks)}
        if rng.random() < 0.6:
            least = analysis.least_conflict(tasks, {index[member.name] for member in members})
            members = certificate.reasons_of(tasks, sorted(least), least)
        if rng.random() < 0.2:
            members = members[:-1]
        members = rng.sample(members, len(members))
        return certificate.spelling(version, Nothing([loose_fails(rng, member, tasks) for member in members]))
    levels = body.levels
    if rng.random() < 0.2:
        levels = rng.sample(levels, len(levels))
    levels = [
        Level(
            level.name,
            level.number + rng.choice([0, 0, 0, 1, rng.randint(0, 5000)]),
            [loose_fails(rng, fails, tasks) for fails in level.fails if rng.random() < 0.93],
        )
        for level in levels
    ]
    said = [Of(chain.name, loose_sum(rng, certificate.sum_of(tasks, levels, chain))) for chain in chains]
    if said and rng.random() < 0.1:
        said = rng.choice([said[1:], said + said[:1], rng.sample(said, len(said)), [Of(rng.choice(said).chain, 1)]])
    return certificate.spelling(version, Best(levels, said))


def loose_sum(rng, number):
    """The least number of a chain, a greater one, or one less."""
    return max(0, number + rng.choice([0, 0, 0, 0, 1, rng.randint(0, 5000), 1_000_000, -1] if rng.random() < 0.7 else [0]))


def loose_fails(rng, fails, tasks):
    over, chain = fails.reason
    if over or rng.random() < 0.5:
        if over and rng.random() < 0.1 and tasks:
            return Fails(fails.name, fails.reason._replace(over=rng.choice(tasks).name))
        return fails
    chain = list(chain)
    for _ in range(rng.choice([1, 1, 2])):
        place = rng.randrange(len(chain))
        kind = rng.randrange(5)
        if kind == 0 and 0 < place < len(chain) - 1:
            del chain[place]
        elif kind == 4:
            chain.insert(place, chain[place])
        elif kind == 1 and place > 0 and chain[place] > chain[place - 1] + 1:
            chain.insert(place, rng.randint(chain[place - 1] + 1, chain[place] - 1))
        elif kind == 2 and place > 0:
            chain[place] = rng.randint(chain[place - 1], chain[place])
        elif kind == 3 and rng.random() < 0.5:
            chain[rng.choice([0, place, -1])] += rng.choice([-1, 1])
    return Fails(fails.name, fails.reason._replace(chain=tuple(max(0, number) for number in chain)))


# Release lists


def releases_of(rng, tasks):
    """Releases that the set allows, some with a fault."""
    period = min((task.period for task in tasks), default=1000)
    until = rng.choice([0, 1, period, period * rng.randint(1, 30), rng.randint(1, 60_000_000)])
    out = []
    for task in tasks:
        arrival, gap = rng.choice([0, 0, rng.randint(0, task.period)]), rng.choice([0, 0, 0, 1, task.period])
        for _ in range(rng.choice([1, 3, 12, 40])):
            late = rng.choice([0, task.jitter, rng.randint(0, task.jitter)])
            if arrival + late >= until:
                break
            runs = rng.choice([None, None, None, 1, task.cost, rng.randint(1, task.cost)])
            out.append(kernel.Release(arrival, task.name, late, runs))
            arrival += task.period + rng.randint(0, gap)
    out.sort(key=lambda release: release.arrival)
    if rng.random() < 0.3:
        out = kernel.densest(tasks, min(until, period * 40)) if rng.random() < 0.5 else kernel.random_list(tasks, min(until, period * 40), rng.getrandbits(32))
    if out and rng.random() < 0.15:
        until = max(release.ready for release in out) + rng.randint(0, 1)
    if out and rng.random() < 0.3:
        place = rng.randrange(len(out))
        hit = out[place]
        out[place] = rng.choice([
            hit._replace(arrival=max(0, hit.arrival - 1)), hit._replace(arrival=hit.arrival + 1), hit._replace(late=hit.late + 1),
            hit._replace(name=rng.choice(make_sets.NAMES)), hit._replace(runs=rng.choice([0, 10_000_000])),
        ])  # fmt: skip
    if rng.random() < 0.05:
        until = rng.choice([60_000_000, 60_000_001])
    if rng.random() < 0.01 and tasks:
        count = rng.choice([10_000, 10_001])
        until, out = 60_000_000, [kernel.Release(k * tasks[0].period, tasks[0].name, 0) for k in range(count)]
    data = with_gaps(rng, kernel.release_list(until, out).encode())
    if rng.random() < 0.3:
        data = settings_of(rng, tasks) + data
    return damaged_lines(rng, data) if rng.random() < 0.1 else data


def until_of(rng, tasks, seed):
    """The end of a list that is to be made, mostly where a job of that list becomes ready, or one later."""
    until = rng.choice([0, 1, 1000, 60_000_000, rng.randint(0, 60_000), rng.randint(0, 2_000_000), 60_000_001])
    if rng.random() < 0.5 or until > 2_000_000:
        return until
    try:
        releases = kernel.densest(tasks, until) if seed is None else kernel.random_list(tasks, until, seed)
    except Refused:  # too many
        return until
    return rng.choice(releases).ready + rng.randint(0, 1) if releases else until


# Settings


def settings_of(rng, tasks):
    """Of the best order or any, with other numbers that rise alike, in any order of lines; some with a fault."""
    order = analysis.best_order(tasks)
    if order is None or rng.random() < 0.4:
        order = rng.sample(range(len(tasks)), len(tasks))
    elif len(order) > 1 and rng.random() < 0.4:
        place = rng.randrange(len(order) - 1)
        order[place], order[place + 1] = order[place + 1], order[place]
    lines = settings.settings(tasks, order).splitlines()
    most = max(rng.choice([len(order), len(order) + 2, 99, 1_000_000]), len(order))
    first = rng.choice([1, 1, most - len(order) + 1 if most < 99 else 1, max(99 - most, 1)])
    numbers = [0, *sorted(rng.sample(range(first, max(most, first + len(order) - 1) + 1), len(order)))]
    if order and rng.random() < 0.15:
        numbers[-1] = rng.choice([1_000_000, 1_000_001])
    lines = [re.sub(r"\d+$", lambda level: str(numbers[int(level[0])]), line) for line in lines]
    if rng.random() < 0.4:
        lines = [line for line in lines if line.startswith("thread")]
    if rng.random() < 0.3:
        ceiling = lambda least: str(rng.choice([int(least[0]), numbers[-1], max(99, numbers[-1]), rng.randint(int(least[0]), max(int(least[0]), 1_000_000))]))
        lines = [re.sub(r"\d+$", ceiling, line) if line.startswith("mutex") else line for line in lines]
    if rng.random() < 0.6:
        rng.shuffle(lines)
    if lines and rng.random() < 0.1:
        del lines[rng.randrange(len(lines))]
    if lines and rng.random() < 0.3:
        place = rng.randrange(len(lines))
        kind, name, number = lines[place].split(" ")
        lines[place] = rng.choice([
            f"{kind} {rng.choice(make_sets.NAMES + make_sets.LOCKS)} {number}", f"{kind} {name} {rng.choice(NUMBERS)}",
            f"{kind} {name} {rng.choice(numbers)}", f"mutex {name} {number}", f"thread {name} {number}",
            f"{kind} {name} {rng.choice([0, 1_000_000, 1_000_001])}",
        ])  # fmt: skip
    data = with_gaps(rng, "".join(line + "\n" for line in lines).encode())
    return damaged_lines(rng, data) if rng.random() < 0.2 else data


def turned(data):
    """The same settings for a kernel of which the smaller number is higher."""
    return re.sub(rb"(?m)(?<= )\d{1,7}$", lambda number: b"%d" % max(settings.NUMBER_MOST + 1 - int(number[0]), 0), data)


# Scripts


def script(rng, damaged=0.15):
    """A script of a few teams and names, so that they meet."""
    kind = rng.random()
    if kind < 0.05:
        rows = full_draft(rng)
    else:
        rows = small_script(rng)
    data = with_gaps(rng, "".join(row + "\n" for row in rows).encode())
    return damaged_lines(rng, data) if rng.random() < damaged else data


def small_script(rng):
    """Rows that mostly ask of live drafts; the world is played along, so that they fit."""
    names = rng.sample(make_sets.NAMES, rng.randint(1, 5))
    teams = rng.sample(range(1, 9), rng.choice([1, 2, 2, 3]))
    pool = [sheet for _ in range(3) for sheet in make_sets.some_sheets(rng, 6)]
    share = rng.choice([1, 1, 2, 4])
    world, rows, opened = desk.World(), [], 0
    for _ in range(rng.choice([0, 3, 10, 20, 20, 40, 60])):
        live = list(world.drafts)
        fresh = [f"open {rng.choice(teams)}"]
        if live and rng.random() < 0.9:
            draft = rng.choice(live) if rng.random() < 0.95 else rng.randint(1, opened)
            if pool and rng.random() < 0.4:
                words = put_words(rng, rng.choice(names), rng.choice(pool), names, share)
                fresh = [f"put {k} {words}" for k in (live if rng.random() < 0.3 else [draft])]
            else:
                fresh = [event(rng, world, draft, live, names, opened)]
        for text in fresh:
            try:
                row = scripts.read_row(len(rows) + 1, text.split(" "), opened)
            except (Refused, Faulty):  # a put past a limit, or of other words
                return [*rows, text]
            opened += isinstance(row, scripts.Open)
            world.play(row)
            rows.append(text)
    return rows


def event(rng, world, draft, live, names, opened):
    """A row on a draft that isn't a put."""
    kind = rng.random()
    name = rng.choice(names)
    if kind < 0.15:
        return f"remove {draft} {name}"
    if kind < 0.6:
        other = rng.choice(live) if rng.random() < 0.95 else rng.randint(1, opened)
        asked = world.drafts.get(other if rng.random() < 0.5 else draft)
        asks = asked is not None and asked.changes and rng.random() < 0.9
        name = rng.choice(list(asked.changes)) if asks else name
        return f"found {draft} {name}" + (f" {other}" if rng.random() < 0.4 else "")
    if kind < 0.78:
        return f"test {draft}"
    return f"commit {draft}" if kind < 0.97 else f"abandon {draft}"


def put_words(rng, name, sheet, names, share):
    if rng.random() < 0.01:
        return past_lists(rng, name, sheet)
    cost = max(1, sheet.last_end, sheet.cost // share)
    words = [name, sheet.weight, sheet.period, sheet.deadline, cost]
    if sheet.jitter or rng.random() < 0.03:
        words.append(f"j={sheet.jitter}")
    if sheet.outranks == ALL or rng.random() < 0.02:
        words.append(rng.choice(["over=*", "over=*", "over=*", "over=all"]))
    elif sheet.outranks:
        others = [other for other in [*names, "absent"] if other != name]
        words.append("over=" + "+".join(rng.sample(others, min(len(others), rng.choice([1, 1, 2])))))
    if rng.random() < 0.15:
        words.append("node=" + "+".join(map(str, node_words(rng))))
    if rng.random() < 0.1:
        tables = make_sets.interrupts(rng)
        words.append("irq=" + "+".join(f"{it['period']}:{it['cost'] + (rng.random() < 0.01)}" for it in tables))
    words += [f"{'+'.join(section.locks)}@{section.at}:{section.len}" for section in sheet.sections]
    return " ".join(map(str, words))


def node_words(rng):
    """What a node takes of a job, of a lock, when a timer comes, and how late; rarely at a limit or past it."""
    numbers = [rng.choice([0, 20, 300]), rng.choice([0, 3]), rng.choice([0, 1, 20, 100]), rng.choice([0, 0, 9])]
    if rng.random() < 0.05:
        numbers[rng.randrange(4)] = rng.choice([1000, 1001, 10_000_000, 10_000_001])
    return numbers if rng.random() < 0.98 else numbers[:3]


def past_lists(rng, name, sheet):
    """A put with as many sections, locks or names to outrank as a sheet may have, or with more."""
    sections, locks, names = rng.choice([(rng.choice([8, 9, 10]), 1, 0), (1, rng.choice([4, 5]), 0), (0, 0, rng.choice([8, 9]))])
    words = [name, sheet.weight, sheet.period, sheet.deadline, max(sheet.cost, 2 * sections)]
    words += ["over=" + "+".join(f"z{k}" for k in range(names))] if names else []
    words += ["+".join(f"L{k}" for k in range(locks)) + f"@{2 * place}:1" for place in range(sections)]
    return " ".join(map(str, words))


def full_draft(rng):
    """Up to some more names than a draft takes, or than a set."""
    count = rng.choice([32, 33, 33, 63, 64, 65])
    rows = ["open 1", *(f"put 1 t{k} 0 1000000 1000000 1" for k in range(count))]
    if rng.random() < 0.5:
        rows += [f"remove 1 t{rng.randrange(count)}", "put 1 last 0 1000000 1000000 1"]
    return [*rows, rng.choice(["commit 1", "test 1"]), "commit 1", "open 2", "put 2 t1 0 1000 1000 1", "remove 2 t2", "commit 2"]
