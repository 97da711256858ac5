"""What a picture has to show of a chain: DEFINITIONS.md, Chains of tasks; FORMATS.md, `draw`."""

import re
import xml.etree.ElementTree as ElementTree

import chain_bounds
import chain_runs
import picture
import settings
from picture import SVG

# How far below the upper edge of a row a way lies: that of what stands longest, and that of what comes next.
LOWER = {"ya": 215, "yb": 295}

# The signs of the legend, in their order, and the classes of the paths that each is of; the first two are words by when tasks write.
SIGNS = [
    ({"finish": "begins, and reads", "deadline": "arrives, and reads"}, ["ya yd", "yb yd"]),
    ({"finish": "to its finish, and writes", "deadline": "to its deadline, and writes"}, ["ya", "yb"]),
    ("what it wrote waits", ["ya yw", "yb yw"]),
    ("stands longest", ["ya ys"]),
    ("what comes next", ["yb", "yb yd", "yb yw"]),
]


def fault(data, view, tasks, rows, until, releases, name):
    """What is wrong with a picture that has the way of a chain; or None."""
    chain = next(it for it in tasks.chains if it.name == name)
    if view.of_tasks not in (None, "all"):
        view = view._replace(of_tasks=",".join([view.of_tasks, *chain.tasks]))
    try:
        root = ElementTree.fromstring(data)
    except ElementTree.ParseError as error:
        return f"no XML: {error}"
    if len(root.findall(SVG + "style")) != 2:
        return "not two styles"
    drawn, words, signs = taken(root)
    wrong = picture.fault(ElementTree.tostring(root), view, tasks, rows, until, releases)
    if wrong is not None:
        return wrong
    until, releases, _ = picture.cut(tasks, rows, until, releases)
    shown = view.with_rows(tasks, releases)
    marks, said = wanted(root, shown, tasks, chain, picture.run_of(tasks, rows, until, releases), until)
    if sorted(drawn) != sorted(marks):
        return f"the way is {sorted(drawn)}, not {sorted(marks)}"
    if words != said:
        return f"says {words}, not {said}"
    meant = signs_of(chain, [kind for kind, _, _ in drawn])
    if signs != meant:
        return f"the signs are {signs}, not {meant}"
    return None


def signs_of(chain, drawn):
    """The words of the signs of what is drawn, by its classes."""
    is_drawn = lambda kinds: not set(kinds).isdisjoint(drawn)
    return [it[chain.writes] if isinstance(it, dict) else it for it, kinds in SIGNS if is_drawn(kinds)]


def taken(root):
    """The paths, the words and the signs of a way, which are taken out of a picture."""
    drawn, words, signs = [], [], []
    for part in list(root):
        kind, text = (part.get("class") or "").split()[:1], "".join(part.itertext())
        if part.tag == SVG + "path" and kind and kind[0] in LOWER:
            if not re.match(r"M\d+ 1032h", part.get("d")):
                drawn.append((part.get("class"), part.get("d"), text))
        elif part.tag == SVG + "text" and part.get("y") == "1070":
            signs.append(text)
        elif part.tag == SVG + "text" and (kind == ["yt"] or text.startswith("chain ") and kind == []):
            words.append((part.get("x"), part.get("y"), text))
        else:
            continue
        root.remove(part)
    return drawn, words, signs


def wanted(root, view, tasks, chain, run, until):
    """The paths of the ways, each with its class and its title, and the words with their places."""
    order, slices, jobs = run
    (start, stop), (left, end) = view.window(until), picture.place(root)
    x = lambda time: left + (min(max(time, start), stop) - start) * (end - left) // (stop - start)
    sees = lambda first, last: first < stop and start < last
    names = [tasks[i].name for i in reversed(order) if view.has_row(tasks[i].name)]
    row = {name: 1690 + 480 * k for k, name in enumerate(names)}
    unit, told = ("ms", picture.millis) if stop - start >= 10_000 else ("us", str)
    marks, words = [], []

    def along(ink, kind, name, how, first, last):
        if sees(first, last):
            title = f"{chain.name}{how}{name} {first} to {last} us"
            marks.append((ink + kind, f"M{x(first)} {row[name] + LOWER[ink]}H{x(last)}", title))

    def draw(ink, path):
        for place, (name, begin, finish) in enumerate(path):
            y = row[name] + LOWER[ink]
            if start <= begin <= stop:
                marks.append((ink + " yd", f"M{x(begin)} {y}h1", ""))
            along(ink, "", name, ": ", begin, finish)
            for reader, reads, _ in path[place + 1 : place + 2]:
                if start <= finish <= stop:
                    marks.append((ink, f"M{x(finish)} {y}V{row[reader] + LOWER[ink]}", ""))
                along(ink, " yw", reader, ": waits for ", finish, reads)

    found = longest(chain, slices, jobs, start, stop)
    age = "-"
    if found is not None:
        path, after, ends = found
        draw("yb", after)
        draw("ya", path)
        name, since = path[-1][0], path[-1][2]
        age = f"{told(ends - path[0][1])} {unit}"
        along("ya", " ys", name, ": stands behind ", since, ends)
        if sees(since, ends):
            half = 450 + 35 * len(chain.name)
            middle = min(max((x(since) + x(ends)) // 2, left + half), end - half)
            words.append((str(middle), str(row[name] + 140), f"{chain.name} {age}"))
    bound = chain_bounds.bound_in(tasks, order, settings.bounds_in(tasks, order), chain)
    bound = "-" if bound is None else f"{told(bound)} {unit}"
    words.append(("100", str(1690 + 480 * len(names) + 95), f"chain {chain.name}: age {age} of bound {bound}"))
    return marks, words


def longest(chain, slices, jobs, start, stop):
    """The path of what gets oldest of what stands in the window, the first of equals; that of what comes next by the
    window's end, if something does; and when it ends. A path is the chain's jobs, each its task's name, begin and finish."""
    begins = {}
    for part in slices:
        begins.setdefault(part.job, part.start)
    done = {name: chain_runs.writes_of(chain, name, begins, jobs) for name in chain.tasks}
    outputs = [(finish, path_to(chain, done, finish)) for finish, _ in done[chain.tasks[-1]] if finish <= stop]
    best, most = None, -1
    for place, (finish, path) in enumerate(outputs):
        after = outputs[place + 1] if place + 1 < len(outputs) else (stop, [])
        if path is not None and start < after[0] and after[0] - path[0][1] > most:
            best, most = (path, after[1] or [], after[0]), after[0] - path[0][1]
    return best


def path_to(chain, done, time):
    """Back from what stands at a time, each job to the newest that was finished when it began; none where one is missing."""
    path = []
    for name in reversed(chain.tasks):
        before = [job for job in done[name] if job[0] <= time]
        if not before:
            return None
        finish, time = before[-1]
        path.insert(0, (name, time, finish))
    return path
