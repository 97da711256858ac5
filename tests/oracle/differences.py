"""What a change of a set does to each task: FORMATS.md, diff."""

import itertools

import analysis
import chain_bounds
from sets import ALL


class Side:
    """A set, by what it was taken, its best order if there is one, and of each name its sheet and its seat."""

    def __init__(self, tasks):
        self.tasks, self.by, self.order = tasks, tasks.by, analysis.best_order(tasks)
        self.sheets = {task.name: task for task in tasks}
        self.seats = {}  # level, bound and slack by name, where some order passes
        for level, i, above in analysis.levels_of(self.order or []):
            bound = analysis.response_of(tasks, i, above)
            self.seats[tasks[i].name] = (level, bound, tasks[i].deadline - bound)
        responses = [self.seats.get(task.name, (None, None))[1] for task in tasks]
        self.chains = {chain.name: (chain, chain_bounds.bound_in(tasks, self.order, responses, chain)) for chain in tasks.chains}


def lines_of(old, new):
    """The lines behind the first two, each that has no keys with the team of its task: the new set's, else the old one's."""
    lines = changes(old, new, (old.by, new.by) == ("weight", "weight"))
    lines = [line if " keys" in line else line + team_of(line.split()[1], old, new) for line in lines]
    return whole(old, new) + lines + chain_changes(old.chains, new.chains)


def whole(old, new):
    """What of a change no task has."""
    lines = [] if old.by == new.by else [f"prefer {old.by} {new.by}"]
    was, now = (side.tasks[0].node._asdict() if side.tasks else {} for side in (old, new))
    keys = [words(key, was.get(key, 0), now.get(key, 0)) for key in ("job", "lock", "release", "late")]
    lines += ["node" + "".join(keys)] if any(keys) else []
    return lines + interrupt_lines(named(old), named(new))


def named(side):
    """The interrupts of a set, each with its name: by its team and its place among that team's."""
    interrupts = next((it.interrupts for it in side.tasks if it.interrupts), ())
    return [(f"{team} interrupt {own}" if team else f"interrupt {own}", it) for it, (team, own) in zip(interrupts, side.tasks.sources)]


def interrupt_lines(old, new):
    """Those that came or are others, by the new set; then those that are gone."""
    lines, none = [], ("-", "-")
    for place, (name, is_now) in enumerate(new):
        was = ([it for other, it in old[place : place + 1] + old if other == name] or [none])[0]
        keys = words("period", was[0], is_now[0]) + words("cost", was[1], is_now[1])
        lines += [name + keys] if keys else []
    gone = [(name, was) for name, was in old if name not in [other for other, _ in new]]
    return lines + [f"{name} period {was[0]} - cost {was[1]} -" for name, was in gone]


def words(key, was, now):
    return "" if was == now else f" {key} {was} {now}"


def team_of(name, old, new):
    return new.tasks.beside(name) or old.tasks.beside(name)


def changes(old, new, weighs):
    """A weight is a key where `weighs`."""
    lines = [line("removed", task.name, old, new) for task in old.tasks if task.name not in new.sheets]
    effects, moves = [], []
    for task in new.tasks:
        if task.name not in old.sheets:
            lines.append(line("added", task.name, old, new))
        elif keys := changed_keys(old.sheets[task.name], task, weighs):
            lines.append(line("changed", task.name, old, new) + " keys" + keys)
        elif old.order is not None and new.order is not None:
            (before, bound_before, _), (after, bound_after, _) = old.seats[task.name], new.seats[task.name]
            if bound_before != bound_after:
                effects.append(line("slower" if bound_after > bound_before else "faster", task.name, old, new))
            elif before != after:
                moves.append(line("moved", task.name, old, new))
    return lines + effects + moves


def changed_keys(before, after, weighs):
    """What was and what is of each number that is a task's own, and of its sections and whom it must outrank."""
    was, now = own(before), own(after)
    out = words("weight", before.weight, after.weight) if weighs else ""
    out += "".join(words(key, getattr(was, key), getattr(now, key)) for key in ("period", "deadline", "cost"))
    for place, pair in enumerate(itertools.zip_longest(was.sections, now.sections), 1):
        out += words(f"section {place}", *(section_word(part) for part in pair))
    return out + words("jitter", was.jitter, now.jitter) + words("outranks", *(over_word(it.outranks) for it in (was, now)))


def own(task):
    """A sheet without what the node takes."""
    sections, before = [], task.node.job - task.node.release
    for part in task.sections:
        sections.append(part._replace(at=part.at - before, len=part.len - task.calls(part)))
        before += task.calls(part)
    return task._replace(cost=task.cost - before, jitter=task.jitter - task.node.late, sections=tuple(sections))


def section_word(part):
    return "-" if part is None else f"{'+'.join(part.locks)}@{part.at}:{part.len}"


def over_word(names):
    return "*" if names == ALL else "+".join(names) or "-"


def line(kind, name, old, new):
    nowhere = ("-", "-", "-")
    words = [kind, name]
    for word, before, after in zip(("level", "bound", "slack"), old.seats.get(name, nowhere), new.seats.get(name, nowhere)):
        words += [word, before, after]
    return " ".join(map(str, words))


def chain_changes(old, new):
    """What becomes of the chains, by their names: each with its bound."""
    lines = [chain_line("removed", name, old[name], None) for name in old if name not in new]
    effects = []
    for name, (chain, bound) in new.items():
        if name not in old:
            lines.append(chain_line("added", name, None, new[name]))
            continue
        before, bound_before = old[name]
        keys = words("tasks", *("+".join(it.tasks) for it in (before, chain)))
        keys += words("limit", *("-" if it.limit is None else it.limit for it in (before, chain)))
        keys += words("offsets", *("+".join(map(str, it.offsets)) or "-" for it in (before, chain)))
        keys += words("writes", before.writes, chain.writes)
        if keys:
            lines.append(chain_line("changed", name, old[name], new[name]) + " keys" + keys)
        elif None not in (bound, bound_before) and bound != bound_before:
            effects.append(chain_line("slower" if bound > bound_before else "faster", name, old[name], new[name]))
    return lines + effects


def chain_line(kind, name, old, new):
    bounds, slacks = [], []
    for chain, bound in (it or (None, None) for it in (old, new)):
        bounds.append("-" if bound is None else bound)
        slacks.append("-" if bound is None or chain.limit is None else chain.limit - bound)
    return " ".join(map(str, [kind, "chain", name, "bound", *bounds, "slack", *slacks]))
