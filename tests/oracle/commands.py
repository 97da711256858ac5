"""What each command answers: FORMATS.md."""

from fractions import Fraction
from typing import NamedTuple

import analysis
import calls
import certificate
import chain_bounds
import chain_runs
import chains
import desk
import differences
import kernel
import limits
import observed
import picture
import scripts
import settings
import teams
import worst
from refusals import Refused
from sets import is_name

INPUT_MOST = 16_777_216
# (of a trace)
TRACE_MOST = 1_073_741_824
INFEASIBLE = 3
# stand for a text that the documents don't pin
DRAWN, RUSHED, HELPED, SAID = "a picture", "a log", "help", "a sentence to a person"


class Answer(NamedTuple):
    text: str  # what is printed to standard output
    status: int
    told: str  # what stands on standard error


def admitted(tasks, order):
    """The first line, of `admit` and others: the order's, or the greatest obstruction where it is None."""
    if order is None:
        return desk.infeasible(tasks, analysis.greatest_obstruction(tasks, range(len(tasks)))) + "\n"
    return f"admitted {len(tasks)}\n"


def with_order(command):
    """A command on the best order of a set; where no order passes, the first line and its status stand alone."""

    def on_set(tasks, *inputs, **options):
        order = analysis.best_order(tasks)
        if order is None:
            return admitted(tasks, None), INFEASIBLE
        return command(tasks, order, *inputs, **options), 0

    return on_set


def admit(tasks):
    order = analysis.best_order(tasks)
    if order is None:
        return admitted(tasks, None), INFEASIBLE
    bounds = bounds_of(tasks, order)
    levels = [f"{level} {tasks[i].name} {bounds[i]}\n" for level, i, _ in analysis.levels_of(order)]
    return with_chains((admitted(tasks, order) + "".join(levels), 0), tasks, order, bounds, is_best=True)


def with_chains(answer, tasks, order, responses, tell_parts=False, is_best=False):
    """An answer, and behind it the lines of chains; where one misses its limit, the status says so."""
    lines, all_met = chain_bounds.lines_of(tasks, order, responses, tell_parts, is_best)
    return answer[0] + lines, answer[1] if all_met else INFEASIBLE


def certify(tasks):
    return certificate.certify(tasks, tasks.chains), 0 if analysis.is_feasible(tasks) else INFEASIBLE


def check(tasks, said):
    return certificate.check(tasks, *said), 0


def no_such_task(word):
    """The refusal where a word names no task."""
    return Refused(4, "NoSuchTask", *[word] * is_name(word))


def no_such_chain(word):
    """The refusal where a word names no chain."""
    return Refused(4, "NoSuchChain", *[word] * is_name(word))


def of_task(command):
    """A command that with the name of a task says that task's lines alone."""

    def on_set(tasks, *more, task=None):
        if task is None:
            return command(tasks, *more, None)
        index = next((i for i, sheet in enumerate(tasks) if sheet.name == task), None)
        if index is None:
            raise no_such_task(task)
        return command(tasks, *more, index)

    return on_set


def at_settings(command):
    """A command that speaks of an order which settings give, of one task or of all."""

    def on_rows(tasks, rows, task=None):
        return of_task(command)(tasks, settings.node_order(tasks, rows), rows, task=task)

    return on_rows


def explain(tasks, task=None, tell_all=False):
    return of_task(explain_all if tell_all else explain_short)(tasks, task=task)


def explain_short(tasks, task):
    """Of a conflict of more than three tasks the order that decides comes first, and what the conflict's tasks need isn't said."""
    order = analysis.best_order(tasks)
    if task is not None or order is not None:
        return explain_all(tasks, task)
    conflict = analysis.least_conflict(tasks, analysis.greatest_obstruction(tasks, range(len(tasks))))
    if len(conflict) <= 3:
        return explain_all(tasks, task)
    levels = [level_line(tasks, *it) for it in settings.judged_levels(tasks, worst.order_for(tasks, None))]
    said = [admitted(tasks, order), *levels, conflict_line(tasks, conflict), f"load {analysis.load(tasks)}\n"]
    return "".join(said), INFEASIBLE


def explain_all(tasks, task):
    order = analysis.best_order(tasks)
    text = [admitted(tasks, order)]
    if order is not None:
        text += accounts(tasks, order, task)
    else:
        conflict = analysis.least_conflict(tasks, analysis.greatest_obstruction(tasks, range(len(tasks))))
        text.append(conflict_line(tasks, conflict))
        for i in sorted(conflict):
            if task in (None, i):
                text += needs(tasks, i, conflict - {i})
    if task is None:
        text.append(f"load {analysis.load(tasks)}\n")
    if order is None:
        text += decided(tasks, task)
    if order is None or task is not None:
        return "".join(text), 0 if order is not None else INFEASIBLE
    return with_chains(("".join(text), 0), tasks, order, bounds_of(tasks, order), tell_parts=True, is_best=True)


def conflict_line(tasks, conflict):
    return " ".join(["conflict", *(tasks[i].name for i in sorted(conflict))]) + "\n"


def explain_at(tasks, rows, task=None, tell_all=False):
    """The same of an order that is given, of which all is told."""
    return at_settings(explain_in)(tasks, rows, task=task)


def explain_in(tasks, order, rows, task):
    """The same of an order that is given, passing or not."""
    first, status = settings.first_judged(tasks, order)
    load = [f"load {analysis.load(tasks)}\n"] if task is None else []
    answer = "".join([first, *accounts(tasks, order, task), *load]), status
    return answer if task is not None else with_chains(answer, tasks, order, settings.bounds_in(tasks, order), tell_parts=True)


def accounts(tasks, order, task):
    """What becomes of each task of an order, or of one, with the parts of its response, or of what it needs."""
    for level, i, words in settings.judged_levels(tasks, order):
        if task not in (None, i):
            continue
        above = order[level:]
        if words.startswith("misses "):
            yield from missed(tasks, level, i, words, above)
            continue
        yield level_line(tasks, level, i, words)
        if not words.startswith("below "):
            yield from parts(tasks, i, above[::-1], analysis.response_of(tasks, i, set(above)) - tasks[i].jitter)


def missed(tasks, level, i, words, above):
    """What a task needs at least that misses its deadline in an order; those above it from the highest level down."""
    yield level_line(tasks, level, i, words)
    yield from parts(tasks, i, above[::-1], analysis.trail(tasks, i, set(above))[-2])


def level_line(tasks, level, i, words):
    """What becomes of a task, with its team; `below` speaks of two, so that no team stands there."""
    return f"{level} {tasks[i].name} {words}{'' if words.startswith('below ') else tasks.beside(tasks[i].name)}\n"


def decided(tasks, task):
    """What becomes of each task in an order that decides, or of one, with the parts of what it needs."""
    order = worst.order_for(tasks, None)
    for level, i, words in settings.judged_levels(tasks, order):
        if task not in (None, i):
            continue
        if words.startswith("misses "):
            yield from missed(tasks, level, i, words, order[level:])
        else:
            yield level_line(tasks, level, i, words)


def needs(tasks, i, above):
    """What a task of a conflict needs below the others of it."""
    over, chain = analysis.reason_of(tasks, i, above)
    if over:
        return [f"{tasks[i].name} must be above {over}\n"]
    first = f"{tasks[i].name} {chain[-1] + tasks[i].jitter} of {tasks[i].deadline}{tasks.beside(tasks[i].name)}\n"
    return [first, *parts(tasks, i, sorted(above, reverse=True), chain[-2])]


def parts(tasks, i, above, window):
    """What the demand of a window comes to, and the jitter; `above` in the order in which it is printed."""
    said = [f"cost {tasks[i].cost - tasks[i].overhead}"]
    if tasks[i].overhead:
        said.append(f"node {tasks[i].overhead}")
    if tasks[i].jitter:
        said.append(f"jitter {tasks[i].jitter}")
    if blocked := analysis.blocking_of(tasks, i, set(above)):
        task, section, lock = analysis.first_blocker(tasks, i, set(above))
        user = next(k for k in (i, *above) if lock in analysis.uses(tasks, k))
        ceiling = "" if user == i else f", ceiling by {tasks[user].name}"
        said.append(f"blocked {blocked} by {task} section {section} lock {lock}{ceiling}{tasks.beside(task)}")
    for k in above:
        jobs = analysis.releases_within(tasks[k], window)
        said.append(f"above {tasks[k].name} {jobs} jobs {jobs * tasks[k].cost}{tasks.beside(tasks[k].name)}")
    if timers := analysis.timers_within(tasks, window):
        said.append(f"timers {timers}")
    for number, (period, cost) in enumerate(analysis.interrupts_of(tasks), 1):
        jobs = -(-window // period)
        if jobs * cost:
            said.append(f"interrupt {number} {jobs} jobs {jobs * cost}")
    return [f"  {line}\n" for line in said]


def chain_named(tasks, word):
    """The chain that a word names."""
    for chain in tasks.chains:
        if chain.name == word:
            return chain
    raise Refused(4, "NoSuchChain", *[word] * is_name(word))


def worst_of(tasks, task=None, chain=None):
    """The run of a chain where one is named, else the worst case of a task."""
    if chain is not None:
        return worst.of_chain(tasks, chain_named(tasks, chain))
    return of_task(worst.worst)(tasks, task=task)


def worst_at(tasks, rows, task=None, chain=None):
    """The same in an order that is given."""
    if chain is not None:
        order = settings.node_order(tasks, rows)
        return worst.of_chain_at(tasks, order, chain_named(tasks, chain))
    return at_settings(worst.worst_at)(tasks, rows, task=task)


@of_task
def limits_of(tasks, task):
    order = analysis.best_order(tasks)
    return admitted(tasks, order) + limits_in(tasks, order, task), 0 if order is not None else INFEASIBLE


def limits_at(tasks, order, rows, task):
    """The same of an order that is given: where that fails, of what helps it."""
    first, status = settings.first_judged(tasks, order)
    return first + limits_in(tasks, order, task), status


def limits_in(tasks, order, task):
    """How far the numbers of a task may go, or of all, in an order, if any, and in some order."""
    text = []
    is_passing = order is not None and analysis.is_passing_order(tasks, order)
    in_order = lambda other: order is not None and analysis.is_passing_order(other, order)
    bounds = bounds_of(tasks, order) if is_passing else {}
    for i, sheet in enumerate(tasks):
        if task not in (None, i):
            continue
        for number in limits.numbers_of(sheet):
            written = lambda value: limits.written(tasks, sheet, number, value)
            found = written(limits.furthest(tasks, i, number))
            most = own_of(sheet, number, found)
            if most is not None:
                found_in = written(limits.furthest(tasks, i, number, in_order))
                in_this = own_of(sheet, number, found_in)
                if order is not None and in_this is None:
                    continue
                value = own_of(sheet, number, number.value(sheet))
                along = along_with(sheet, number, [found_in, found])
                holds = number.held_by(sheet, found)
                held = "" if holds is None else f" by {holds}"
                text.append(f"{sheet.name} {number.words()} {value} {or_dash(in_this)} {most}{along}{held}\n")
        if is_passing:
            text.append(f"{sheet.name} slack {sheet.deadline - bounds[i]}\n")
    if tasks and task is None:
        for number in limits.common_numbers(tasks):
            most = limits.furthest_common(tasks, number, analysis.is_feasible)
            if most is not None:
                own = limits.furthest_common(tasks, number, in_order)
                if order is not None and own is None:
                    continue
                held = number.held(most)
                text.append(f"{number.words} {number.value} {or_dash(own)} {most}{'' if held is None else f' by {held}'}\n")
    if not is_passing and task is None:
        for lock in limits.first_sights(tasks):
            longest, most = limits.longest_on(tasks, lock), limits.most_on(tasks, lock)
            own = limits.most_on(tasks, lock, in_order)
            if (most if order is None else own) is not None:
                text.append(f"lock {lock} len {longest} {or_dash(own)} {most}\n")
    if not is_passing and task is None and not text and not any(chain.offsets for chain in tasks.chains):
        text.append("no single change\n")
    if tasks and task is None:
        greatest = limits.factor(tasks)
        fails = "" if greatest is None else f" {tasks[limits.first_to_fail(tasks, greatest + 1)].name}"
        in_this = lambda other, permille: limits.is_passing_at(other, order, permille)
        own = None if order is None else limits.factor(tasks, in_this)
        text.append(f"all {or_dash(own)} {or_dash(greatest)}{fails}\n")
    return "".join(text + (limits_with_chains(tasks, order, task) if is_passing else []))


def limits_with_chains(tasks, order, task):
    """What each chain's bound leaves of its limit in an order that passes, and how far the numbers of a task may go, or of all,
    with the chain met, where that is less than the order lets them."""
    text = []
    for chain in tasks.chains:
        if chain.limit is None:
            continue
        slack = chain.limit - chain_bounds.bound_of(tasks, order, chain)
        if task is None and slack >= 0:
            text.append(f"chain {chain.name} slack {slack}\n")
        for i, sheet in enumerate(tasks):
            for number in limits.growing_of(sheet) if task in (None, i) else ():
                most = limits.furthest(tasks, i, number, lambda other: chain_bounds.is_met(other, order, chain))
                in_order = limits.furthest(tasks, i, number, lambda other: analysis.is_passing_order(other, order))
                own = own_of(sheet, number, most)
                if own is not None and most != in_order:
                    value = own_of(sheet, number, number.value(sheet))
                    text.append(f"chain {chain.name} {sheet.name} {number.words()} {value} {own}\n")
    return text


def along_with(sheet, number, values):
    """What goes along with values of a number, of which the last is the furthest: the other number with each that there is."""
    other = number.taken_along()
    with_each = [] if other is None else [other.value(number.with_value(sheet, it)) for it in values if it is not None]
    if all(it == other.value(sheet) for it in with_each):
        return ""
    return " ".join([f" with {other.words()}", *map(str, with_each)])


def own_of(sheet, number, value):
    """What of a value that was found is the task's own; None where none was, or leaves none."""
    return None if value is None else number.own(sheet, value)


def or_dash(number):
    return "-" if number is None else number


def bounds_of(tasks, order):
    """The bound of each task of an order that passes."""
    return {i: analysis.response_of(tasks, i, above) for _, i, above in analysis.levels_of(order)}


def diff(old, new):
    old, new = differences.Side(old), differences.Side(new)
    first = admitted(new.tasks, new.order) + "was " + admitted(old.tasks, old.order)
    lines = "".join(line + "\n" for line in differences.lines_of(old, new))
    return first + lines, 0 if new.order is not None else INFEASIBLE


def read_change(data, preference):
    """The new set of `diff`."""
    try:
        return teams.read_set(data, preference)
    except Refused as refusal:
        raise refusal.behind("new") from None


def met_status(tasks, order):
    """The status of an order that passes, by the limits of chains."""
    return 0 if chain_bounds.lines_of(tasks, order, bounds_of(tasks, order))[1] else INFEASIBLE


def settings_of(tasks, base=1, room=0):
    order = analysis.best_order(tasks)
    if order is None:
        return admitted(tasks, None), INFEASIBLE
    return settings.settings(tasks, order, base, room), met_status(tasks, order)


def keep(tasks, rows, base=1, room=0):
    kept = settings.kept_order(tasks, rows)
    old = {name: number for _, name, number in settings.of_kind(rows, "thread")}
    order = settings.best_keeping(tasks, kept)
    said, status = settings.keep(tasks, kept, old, base, room)
    return said, status if order is None else met_status(tasks, order)


def judge(tasks, rows, lower_is_higher=False):
    heights = rows
    if lower_is_higher:
        heights = [(line, kind, name, -number) for line, kind, name, number in rows]
    order = settings.node_order(tasks, heights, may_raise=True)
    blocked = settings.blocked_by(heights)
    return with_chains(settings.judge(tasks, order, rows, blocked), tasks, order, settings.bounds_in(tasks, order, blocked))


def simulate(tasks, said, of_tasks=False):
    rows, until, releases = said
    if rows:
        return simulate_in(tasks, settings.node_order(tasks, rows), until, releases, of_tasks), 0
    return simulate_best(tasks, until, releases, of_tasks)


@with_order
def simulate_best(tasks, order, until, releases, of_tasks):
    return simulate_in(tasks, order, until, releases, of_tasks)


def simulate_in(tasks, order, until, releases, of_tasks):
    """What is printed of a run in an order, passing or not."""
    kernel.check_releases(tasks, until, releases)
    ceilings = analysis.ceilings(tasks, order)
    until, releases, _ = kernel.cut(tasks, order, ceilings, until, releases)
    slices, jobs = kernel.run(tasks, order, ceilings, until, releases)
    if not of_tasks:
        return kernel.simulated(slices, jobs)
    bounds = settings.bounds_in(tasks, order)
    lines = [kernel.came_to(tasks[i], bound, jobs) for i, bound in bounds.items()]
    return "".join(lines + chain_runs.lines_of(tasks, order, bounds, slices, jobs, until))


def releases(tasks, until, seed=None):
    said = kernel.densest(tasks, until) if seed is None else kernel.random_list(tasks, until, seed)
    return kernel.release_list(until, said), 0


def script(tasks, team=None):
    if team is not None:
        return draft(1, team, tasks), 0
    teams_of = list(dict.fromkeys(tasks.owners.values())) or [None] * bool(tasks)
    if len(teams_of) > scripts.TEAMS:
        raise Refused(4, "TooManyTeams")
    parts = [[task for task in accounted(tasks) if tasks.owners.get(task.name) == it] for it in teams_of]
    return "".join(draft(number, number, part) for number, part in enumerate(parts, 1)), 0


def accounted(tasks):
    """The tasks, each with the interrupts that its team says, if it is the first of it; the first of all with those of a document
    without tasks, too."""
    said, own = [it for task in tasks for it in task.interrupts], [[] for _ in tasks]
    for interrupt, (team, _) in zip(said, tasks.sources):
        place = next((k for k, task in enumerate(tasks) if team is not None and tasks.owners.get(task.name) == team), 0)
        own[place].append(interrupt)
    return [task._replace(interrupts=tuple(it)) for task, it in zip(tasks, own)]


def draft(number, team, tasks):
    """The draft of a team: it is opened, each task is put, and it is committed."""
    puts = [f"put {number} {scripts.sheet_words(task)}\n" for task in tasks]
    return "".join([f"open {team}\n", *puts, f"commit {number}\n"])


def observe(tasks, said, tolerance=0, is_jobless=False):
    rows, *trace = said
    if rows:
        order = settings.node_order(tasks, rows)
        if None in settings.bounds_in(tasks, order).values():
            return settings.judge(tasks, order, rows)
        numbers = {name: number for _, name, number in settings.of_kind(rows, "thread")}
    else:
        order = analysis.best_order(tasks)
        if order is None:
            return admitted(tasks, None), INFEASIBLE
        numbers = {tasks[i].name: level for level, i, _ in analysis.levels_of(order)}
    return observed.observe(tasks, order, numbers, *trace, tolerance, is_jobless)


def draw(tasks, said, chain=None, **options):
    """Refusals as those of `simulate`, then those of a view, then that of a chain; what a picture has to show is another
    module's."""
    text, status = simulate(tasks, said)
    view = picture.View(**options)
    is_known = chain is None or any(it.name == chain for it in tasks.chains)
    names = {task.name for task in tasks}
    for word in view.named():
        if word not in names:
            raise no_such_task(word)
    if status == 0:
        start, stop = view.window(picture.cut(tasks, *said)[0])
        if start >= stop:
            raise Refused(4, "EmptyWindow")
    if not is_known:
        raise no_such_chain(chain)
    return (text, status) if status != 0 else (DRAWN, 0)


class NewSet:
    """A new set that is read behind what comes before it."""

    def __init__(self, call, data):
        self.call, self.data, self.tasks = call, data, None

    def read(self):
        self.tasks = strictly(self.call, read_change, read_change(self.data, self.call.options.get("prefer")))
        return self.tasks


def draw_beside(tasks, said, new, **options):
    """Refusals as those of `simulate`, then the new set's, then those of its run, then those of a view."""
    text, status = simulate(tasks, said)
    changed = new.read()
    try:
        other, other_status = simulate(changed, said)
    except Refused as refusal:
        raise refusal.behind("new") from None
    view = picture.View(**options)
    names = {task.name for task in [*tasks, *changed]}
    for word in view.named():
        if word not in names:
            raise no_such_task(word)
    if status != 0 or other_status != 0:
        return (text, status) if status != 0 else (other, other_status)
    start, stop = view.window(max(picture.cut(it, *said)[0] for it in (tasks, changed)))
    if start >= stop:
        raise Refused(4, "EmptyWindow")
    return DRAWN, 0


def play(rows):
    return desk.played(rows), 0


def rush(rows, workers):
    return RUSHED, 0


def by_slack(run):
    """A command whose levels stand by the slack of their tasks where the words ask for it, the least first."""

    def sorted_run(tasks, *inputs, sort=None, **options):
        text, status = run(tasks, *inputs, **options)
        return text if sort is None else sorted_levels(tasks, text), status

    return sorted_run


def sorted_levels(tasks, text):
    """Levels with their parts stand together; of equal slack they stay as they are."""
    deadlines = {task.name: task.deadline for task in tasks}
    lines = text.splitlines(True)
    of_levels = [place for place, line in enumerate(lines) if line[0].isdigit()]
    if not of_levels:
        return text
    end = of_levels[-1] + 1
    while end < len(lines) and lines[end].startswith(" "):
        end += 1
    blocks = [lines[start:stop] for start, stop in zip(of_levels, [*of_levels[1:], end])]
    blocks.sort(key=lambda block: slack_of(deadlines, block[0].split()))
    return "".join(lines[: of_levels[0]] + [line for block in blocks for line in block] + lines[end:])


def slack_of(deadlines, words):
    """What a level's line leaves of its task's deadline; below another one nothing at all."""
    _, name, said, *more = words
    return float("-inf") if said == "below" else deadlines[name] - int(more[2] if said == "misses" else said)


SORT = {"sort": calls.one_of("slack")}
PREFERS = {"prefer": calls.one_of("weight", "deadline", "chains"), "strict": calls.FLAG}
OF_TASK = {**PREFERS, "task": calls.any_word}


def on_set(run, *readers, number=(), options=PREFERS, by_file=(), may_lack=False):
    return calls.Command(run, (teams.read_set, *readers), number, options, by_file, may_lack)


KEEP = on_set(keep, settings.read_settings)
OF_CHAIN = {**OF_TASK, "chain": calls.any_word}
WORST_AT = on_set(worst_at, settings.read_settings, options=OF_CHAIN)
LIMITS_AT = on_set(at_settings(limits_at), settings.read_settings, options=OF_TASK)
OF_ALL = {**OF_TASK, "all": calls.FLAG}
OF_ALL |= SORT
EXPLAIN_AT = on_set(by_slack(explain_at), settings.read_settings, options=OF_ALL)
AT = {**OF_TASK, "at": calls.any_word}
TIME = calls.number_within(0, kernel.HORIZON)
VIEW = {"from": TIME, "to": TIME, "width": calls.number_within(960, 16_000), "print": calls.number_within(3, 4), "title": calls.any_word, "tasks": calls.any_word}

WITH_CHAIN = {**PREFERS, **VIEW, "chain": calls.any_word}
BESIDE = on_set(draw_beside, kernel.read_releases, NewSet, options=WITH_CHAIN)
LEEWAY = {"tolerance": calls.number_within(0, observed.TOLERANCE_MOST), "jobless": calls.FLAG}


COMMANDS = {
    "admit": on_set(by_slack(admit), options={**PREFERS, **SORT}),
    "certify": on_set(certify),
    "check": on_set(check, certificate.read),
    "explain": on_set(by_slack(explain), options={**AT, **OF_ALL}, by_file=("at", EXPLAIN_AT)),
    "limits": on_set(limits_of, options=AT, by_file=("at", LIMITS_AT)),
    "settings": on_set(settings_of, options={**PREFERS, "keep": calls.any_word, "base": calls.number_within(1, settings.BASE_MOST), "room": calls.number_within(0, settings.ROOM_MOST)}, by_file=("keep", KEEP)),
    "judge": on_set(by_slack(judge), settings.read_settings, options={**PREFERS, **SORT, "lower-is-higher": calls.FLAG}),
    "diff": on_set(diff, read_change),
    "simulate": on_set(simulate, kernel.read_releases, options={**PREFERS, "tasks": calls.FLAG}),
    "releases": on_set(releases, number=(0, kernel.HORIZON), options={**PREFERS, "seed": calls.number_within(0, 2**32 - 1)}),
    "worst": on_set(worst_of, options={**AT, **OF_CHAIN}, by_file=("at", WORST_AT)),
    "draw": on_set(draw, kernel.read_releases, options={**WITH_CHAIN, "beside": calls.any_word}, by_file=("beside", BESIDE)),
    "observe": on_set(observe, observed.read_trace, options={**PREFERS, **LEEWAY}),
    "script": on_set(script, number=(1, scripts.TEAMS), may_lack=True),
    "play": calls.Command(play, (scripts.read_script,)),
    "rush": calls.Command(rush, (scripts.read_script,), (1, scripts.TEAMS)),
}
KEYWORDS = {"all": "tell_all", "tasks": "of_tasks", "lower-is-higher": "lower_is_higher", "from": "start", "to": "stop", "print": "paper", "jobless": "is_jobless"}  # options by another name
OF_THE_ORDER = ("admit", "explain", "limits", "settings")  # commands whose answer speaks of the order alone
OF_A_PREFERENCE = (teams.read_set, read_change)  # readers that are told it
HELP = {(word,) for word in ("help", "-h", "--help", "-V", "--version")}
HELP |= {words for name in COMMANDS for words in ((name, "-h"), (name, "--help"), ("help", name))}


def answer(words, files, stdin=b""):
    """The answer to a call. `files` has the bytes of each by its path."""
    if tuple(words) in HELP:
        return Answer(HELPED, 0, "")
    try:
        call = calls.call_of(words, COMMANDS)
        said = read_inputs(call, files, stdin)
        text, status = call.command.run(*said, *call.numbers, **keywords(call))
    except calls.Wrong:
        return Answer("", 2, SAID)
    except Refused as refusal:
        return Answer(refusal.line, refusal.status, SAID)
    if call.command.readers[0] is not teams.read_set:
        return Answer(text, status, "")
    return Answer(text, status, told(call, said, text, status))


def keywords(call):
    """The options of a call but for how it reads sets, by the names that functions know."""
    return {KEYWORDS.get(name, name): value for name, value in call.options.items() if name not in PREFERS}


def told(call, said, text, status):
    """What stands on standard error beside an answer on a set."""
    tasks, others = said[0], said[1:]
    lines = overridden(call, tasks, "set's")
    if call.command is COMMANDS["diff"]:
        lines += overridden(call, others[0], "new set's") + notes(others[0]) + chain_missed(others[0], "the new set's")
    elif call.command is BESIDE:
        lines += overridden(call, others[1].tasks, "new set's") + notes(others[1].tasks)
        lines += notes_of_both(tasks, *others, status)
    else:
        lines += ["the set has no task"] * (not tasks) + notes(tasks)
        if tasks and call.options.get("base", 1) + len(tasks) - 1 > 99:
            lines.append("the highest thread is above 99, the most that Linux has for SCHED_FIFO")
        lines += notes_of(call, tasks, others, text, status)
    return "".join(f"note: {line}\n" for line in lines)


def overridden(call, tasks, whose):
    """Where the call prefers otherwise than a set."""
    prefer = call.options.get("prefer")
    is_other = prefer is not None and tasks.own not in (None, prefer)
    return [f'--prefer {prefer} overrides the {whose} prefer = "{tasks.own}"'] * is_other


def doubts(call, tasks):
    """For what `--strict` refuses a set, by the first: names of tasks, locks and tasks to outrank."""
    for task in tasks:
        for section in task.sections:
            for lock in section.locks:
                if sum(any(lock in part.locks for part in other.sections) for other in tasks) == 1:
                    yield "LoneLock", task.name, lock
    names = {task.name for task in tasks}
    for task in tasks:
        for name in task.named:
            if name not in names:
                yield "NoSuchName", task.name, name
    if names_decide(call, tasks):
        for lower, higher in zip(tasks, tasks[1:]):
            if lower.limit < higher.limit:
                yield "NamesDecide", lower.name, higher.name


def strictly(call, reader, tasks):
    """The set with its chains; or the refusal of its first doubt, where the call or the node's document asks for none, but
    for the old set of `diff`, or of its chains."""
    is_old = call.command is COMMANDS["diff"] and reader is teams.read_set
    is_strict = "strict" in call.options or tasks.is_strict
    for doubt in doubts(call, tasks) if is_strict and not is_old else ():
        raise Refused(4, *["new"] * (reader is read_change), *doubt)
    try:
        tasks.chains = chains.read_chains(tasks.documents, tasks)
    except Refused as refusal:
        raise refusal.behind(*["new"] * (reader is read_change)) from None
    return tasks


def notes_of(call, tasks, others, text, status):
    """What is noted of the answer itself."""
    command = next((name for name in COMMANDS if COMMANDS[name] is call.command), "keep" if call.command is KEEP else "")
    if command == "keep":
        return strange_threads(tasks, others[0]) + parted(text) + kept_missed(text, status)
    if call.command is LIMITS_AT:
        return uncounted(tasks) + given_missed(tasks, others[0])
    if call.command is WORST_AT:
        return left_out(tasks) + given_missed(tasks, others[0])
    if call.command is EXPLAIN_AT:
        return given_missed(tasks, others[0]) if "task" in call.options else []
    if command == "limits":
        return uncounted(tasks) + (names_decide(call, tasks) if text.startswith("admitted ") else []) + chain_missed(tasks)
    if command == "worst":
        return left_out(tasks) + names_decide(call, tasks) * (status != INFEASIBLE) + chain_missed(tasks)
    if command == "certify":
        return chain_missed(tasks)
    if command in OF_THE_ORDER:
        if status != INFEASIBLE or text.startswith(("admitted ", "thread ")):
            is_silent = command == "settings" or "task" in call.options
            return names_decide(call, tasks) + (chain_missed(tasks) if is_silent else [])
        return conflict(tasks) if command in ("admit", "settings") else []
    if command in ("simulate", "draw"):
        if status == INFEASIBLE:
            return ["no order passes, so there is no run: desk explain says why"]
        in_best = [] if others[0][0] else names_decide(call, tasks)
        missed = listed_missed(tasks, others[0][0]) if others[0][0] else chain_missed(tasks)
        return in_best + left_out(tasks) + overran(picture.cut(tasks, *others[0])[2]) + missed
    if command == "script":
        return ["a script has no chains: those of the set are left out"] * bool(tasks.chains)
    if command == "observe":
        seen = {line.split()[1]: int(line.split()[2]) for line in text.splitlines() if line.startswith("task ")}
        unseen = [task.name for task in tasks if seen.get(task.name) == 0]
        rows, is_shown = others[0][0], bool(seen)
        in_best = names_decide(call, tasks) if is_shown and not rows else []
        missed = (listed_missed(tasks, rows) if rows else chain_missed(tasks)) if is_shown else []
        return in_best + ["the trace has no job of " + ", ".join(unseen)] * bool(unseen) + missed
    return []


def chain_missed(tasks, whose="the"):
    """Where a chain misses its limit in the best order, and the answer doesn't say so."""
    is_missed = misses_chain(tasks, analysis.best_order(tasks))
    return [f"in {whose} best order a chain misses its limit: desk admit says which"] * is_missed


def kept_missed(text, status):
    """The same of settings that keep others."""
    return missed_here(status == INFEASIBLE and text.startswith("thread "))


def given_missed(tasks, rows):
    """The same of an order that settings give, where it passes."""
    order = settings.node_order(tasks, rows)
    return missed_here(analysis.is_passing_order(tasks, order) and misses_chain(tasks, order))


def listed_missed(tasks, rows):
    """The same of an order in front of a list or a trace."""
    order = picture.order_of(tasks, rows)
    return missed_here(analysis.is_passing_order(tasks, order) and misses_chain(tasks, order))


def missed_here(is_missed):
    return ["in this order a chain misses its limit: desk judge says which"] * is_missed


def misses_chain(tasks, order):
    """Whether a chain misses its limit in an order that passes, if there is one."""
    return order is not None and not chain_bounds.lines_of(tasks, order, bounds_of(tasks, order), False, True)[1]


def notes_of_both(tasks, said, new, status):
    """What is noted of two runs: once what they lack, then the end of each, and whose no it is."""
    passes = [picture.order_of(it, said[0]) is not None for it in (tasks, new.tasks)]
    lines = (left_out(tasks) or left_out(new.tasks)) * passes[0]
    for it in [it for it, is_run in zip((tasks, new.tasks), passes) if is_run]:
        name = picture.cut(it, *said)[2]
        lines += [] if name is None else [f"of the two runs one ends where a job of {name} is ready and the one before it isn't done"]
    which = "new" if passes[0] else "first"
    return lines + [f"no order of the {which} set passes, so there is no picture: desk explain says why"] * (status == INFEASIBLE)


def names_decide(call, tasks):
    """Where nothing is preferred, no task has a weight, and names put a task lower than one of a longer limit."""
    against = any(lower.limit < higher.limit for lower, higher in zip(tasks, tasks[1:]))
    if call.options.get("prefer") is not None or tasks.own is not None or not against or any(task.weight for task in tasks):
        return []
    return ['names decide the order; prefer = "deadline" in front of the tasks has shorter ones higher']


def notes(tasks):
    """Each lock that has one user and each name that a task outranks and no task has; and where the processor's time doesn't
    do for costs, timers and interrupts."""
    lines = []
    for lock in analysis.ceilings(tasks, range(len(tasks))):
        users = [task.name for i, task in enumerate(tasks) if lock in analysis.uses(tasks, i)]
        if len(users) == 1:
            lines.append(f"lock {lock} has one user, {users[0]}")
    names = {task.name for task in tasks}
    for task in tasks:
        for name in task.named:
            if name not in names:
                more = '; to outrank all others, write outranks = "all"' if name == "all" else ""
                lines.append(f"{task.name} outranks {name}, which is no task of the set: that binds nothing{more}")
    asked = [(task.period, task.cost + task.node.release) for task in tasks] + analysis.interrupts_of(tasks)
    if sum(Fraction(cost, period) for period, cost in asked) > 1:
        more = "come to more than 1: no order can pass"
        asking = "costs, timers and interrupts over the periods" if analysis.has_interrupts(tasks) else "the costs over the periods"
        lines.append(f"{asking} {more}")
    return lines


def left_out(tasks):
    """What a run doesn't have."""
    return ["what timers and interrupts take is in the bounds, and not in the run"] * analysis.has_interrupts(tasks)


def overran(name):
    """Where a run ends at a job that is ready too soon."""
    return [] if name is None else [f"the run ends where a job of {name} is ready and the one before it isn't done"]


def strange_threads(tasks, rows):
    """Each thread of settings that is no task."""
    names = {task.name for task in tasks}
    return [f"thread {name} is no task of the set: it is left out" for _, kind, name, _ in rows if kind == "thread" and name not in names]


def conflict(tasks):
    """Beside a no that prints the greatest obstruction alone."""
    greatest = analysis.greatest_obstruction(tasks, range(len(tasks)))
    least = sorted(analysis.least_conflict(tasks, greatest))
    of_these = "of these " if len(least) < len(greatest) else ""
    names = ", ".join(tasks[i].name for i in least)
    how = "can't be met in any order" if len(least) == 1 else "can't be met together"
    return [f"{of_these}{names} {how}: desk explain says why"]


def parted(text):
    """Beside the pair that has to change."""
    if not text.startswith("parted "):
        return []
    _, low, high = text.split()
    return [f"with {high} above {low}, and those below as they are, no order passes: leave out the line of one, and that one may move"]


def uncounted(tasks):
    """Beside how far numbers may go."""
    has_offsets = any(it.offsets for it in tasks.chains)
    return ["no line moves the period of a task with an offset: another may be refused"] * has_offsets


def chain_beside(text):
    """A picture of two runs has no way along a chain: the list is refused unread."""
    raise Refused(4, "ChainBeside")


def most_of(reader):
    """The bytes that an input of a kind may have."""
    return TRACE_MOST if reader is observed.read_trace else INPUT_MOST


def read_inputs(call, files, stdin):
    """All are opened, then all are read, then all are parsed."""
    data = [stdin if path == "-" else teams.text_of(path, files) for path in call.paths]
    if None in data:
        raise Refused(7, "ReadFailed")
    if any(len(text) > most_of(reader) for reader, text in zip(call.command.readers, data)):
        raise Refused(4, "InputTooLong")
    preference = call.options.get("prefer")
    if call.command is BESIDE and len(data[1]) + 1 + len(data[2]) > INPUT_MOST:
        raise Refused(4, "InputTooLong")
    read = {NewSet: lambda text: NewSet(call, text)}
    read |= {reader: lambda text, reader=reader: strictly(call, reader, reader(text, preference)) for reader in OF_A_PREFERENCE}
    if call.command is BESIDE and "chain" in call.options:
        read[kernel.read_releases] = chain_beside
    return [read.get(reader, reader)(text) for reader, text in zip(call.command.readers, data)]
