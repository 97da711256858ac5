"""What a picture of two runs of one list has to show: the line on both, how many deadlines they miss, whose rows stand where, in
which tones, and each thing that a pointer shows; of these the changed responses.
"""

import xml.etree.ElementTree as ElementTree

import analysis
import picture
from picture import SVG


def fault(data, view, olds, news, rows, until, releases):
    """What is wrong with a picture of two runs, of a set and of a new one; or None."""
    sides = [(tasks, *picture.cut(tasks, rows, until, releases)[:2]) for tasks in (olds, news)]
    try:
        root = ElementTree.fromstring(data)
    except ElementTree.ParseError as error:
        return f"no XML: {error}"
    if root.tag != SVG + "svg" or root.get("version") != "1.1":
        return "not an SVG 1.1 document"
    end = max(side[1] for side in sides)
    told = ["".join(part.itertext()) for part in root.findall(SVG + "text")]
    wide = int(root.get("viewBox").split()[2])
    for said in (verdict(view, rows, sides, wide), line(view, rows, sides, end)):
        if said not in told:
            return f"doesn't say {said!r}"
    if places(root) != wanted_places(view, rows, sides):
        return f"rows are {places(root)}, not {wanted_places(view, rows, sides)}"
    titles = sorted(title.text or "" for title in root.iter(SVG + "title"))
    wanted = sorted(shown(view, rows, sides, picture.gap(root, view, end), end))
    if len(titles) != len(wanted):
        return f"{len(titles)} titles, not {len(wanted)}"
    for title, want in zip(titles, wanted):
        if title != want:
            return f"shows {title!r}, not {want!r}"
    return None


def jobs_of(rows, side):
    return picture.run_of(side[0], rows, *side[1:])[2]


def verdict(view, rows, sides, wide):
    counts = [sum(picture.is_missed(job, side[1]) for job in jobs_of(rows, side)) for side in sides]
    before, after = [f"deadlines missed: {count}" if count else "no deadline missed" for count in counts]
    taken = 20 + sum(23 if count else 18 for count in counts)
    return f"before: {before}, after: {after}{view.heading(picture.letters_behind(wide, taken))}"


def line(view, rows, sides, end):
    """Tasks, jobs and end of both, how many responses changed, what the runs lack, and the window."""
    start, stop = view.window(end)
    unit, told = ("ms", picture.millis) if stop - start >= 10_000 else ("us", str)
    words = [
        f"{word}: tasks: {len(side[0])}, jobs: {len(jobs_of(rows, side))}, until {told(side[1])} {unit}"
        for word, side in zip(("before", "after"), sides)
    ]
    unrun = ", timers and interrupts in the bounds alone" if any(analysis.has_interrupts(side[0]) for side in sides) else ""
    part = "" if (start, stop) == (0, max(end, 1)) else f", shown: {told(start)} to {told(stop)} {unit}"
    return f"{', '.join(words)}, responses changed: {len(list(changes(rows, sides)))}{unrun}{part}"


def changes(rows, sides):
    """The jobs of the new run whose response is another than before, as far as both are known, each with the old one."""
    known = min(max(side[1], 1) for side in sides)
    done = lambda job: None if job.finish is None or job.finish > known else job.finish
    for old, job in zip(*(jobs_of(rows, side) for side in sides)):
        same = (old.task.name, old.release.arrival) == (job.task.name, job.release.arrival)
        if same and done(old) != done(job):
            yield old, job


def places(root):
    """Each row's height, name and tone, from above."""
    names = {part.get("y"): part.find(SVG + "title").tail for part in root.iter(SVG + "text") if part.find(SVG + "title") is not None}
    inks = {str(int(part.get("y")) + 100): part.get("class") for part in root.iter(SVG + "rect") if part.get("x") == "350"}
    return [(int(y), names[y], inks.get(y)) for y in sorted(names, key=int)]


def wanted_places(view, rows, sides):
    """A task's row before stands above, the one after right below; last stand those that only the new run has."""
    olds, news = [rows_of(view.with_rows(tasks, releases), tasks, rows) for tasks, _, releases in sides]
    given = picture.tones([task.name for side in sides for task in side[0]], 10)
    order = [picture.order_of(side[0], rows) for side in sides]
    old_tones = toned(view.with_rows(sides[0][0], sides[0][2]), given, sides[0][0], order[0])
    new_tones = toned(view.with_rows(sides[1][0], sides[1][2]), given, sides[1][0], order[1])
    new_tones |= {name: tone for name, tone in old_tones.items() if name in new_tones}
    pairs = [*olds, *(name for name in news if name not in olds)]
    found = []
    for k, name in enumerate(pairs):
        found += [(2400 + 960 * k, name, f"f{old_tones.get(name)}")] * (name in olds)
        found += [(2880 + 960 * k, name, f"f{new_tones.get(name)}")] * (name in news)
    return found


def rows_of(view, tasks, rows):
    """The names of the rows that are shown, the highest first."""
    return [tasks[i].name for i in reversed(picture.order_of(tasks, rows)) if view.has_row(tasks[i].name)]


def toned(view, given, tasks, order):
    """The tones of all rows: of those that are shown none has that of the one above."""
    out, above = {}, None
    for i in reversed(order):
        name = tasks[i].name
        out[name] = given[name]
        if view.has_row(name):
            out[name] = (given[name] + 1) % 10 if above == given[name] else given[name]
            above = out[name]
    return out


def shown(view, rows, sides, gap, end):
    """The titles: of the picture, those of each run, and of each changed response in the window."""
    words = [
        f"{word}: tasks: {len(side[0])}, jobs: {len(jobs_of(rows, side))}, until {side[1]} us"
        for word, side in zip(("before", "after"), sides)
    ]
    yield ", ".join(words) + view.heading()
    for tasks, until, releases in sides:
        yield from list(picture.shown(view.with_rows(tasks, releases), tasks, rows, until, releases, gap, end))[1:]
    start, stop = view.window(end)
    tasks, until, releases = sides[1]
    rowed = view.with_rows(tasks, releases)
    response = lambda job: "not done" if job.finish is None else f"{job.finish - job.release.arrival} us"
    for old, job in changes(rows, sides):
        at = max(until, 1) if job.finish is None else job.finish
        if start <= at <= stop and rowed.has_row(job.task.name):
            word = "" if job.finish is None else "response "
            yield f"{job.task.name}: {word}{response(job)}, before {response(old)}"
