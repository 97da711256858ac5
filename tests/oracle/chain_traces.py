"""What a trace shows of a set's chains: DEFINITIONS.md, Chains of tasks; FORMATS.md, observe."""

import chain_bounds
import chain_runs


def lines_of(tasks, order, responses, owned, jobs, seen, end, tolerance):
    """A line for each job of their tasks that isn't steady, then one for each chain, and of one that gets too old
    another. Whether there are any but those of chains is said, too."""
    starts = {}
    for part, owner in owned:
        starts.setdefault(owner, part.start)
    linked = {name for chain in tasks.chains for name in chain.tasks}
    lines = []
    for one in seen:
        most = one.task.period + (one.task.jitter if one.job.ready is None else 0)
        if one.job.name in linked and one.gap is not None and one.gap - most > tolerance:
            lines.append(f"steady {one.job.name} {one.job.arrival} {one.gap} of {most}")
    broken = list(lines)
    for chain in tasks.chains:
        outputs = outputs_of(chain, jobs, starts) if chain.writes == "finish" else deadline_outputs(tasks, chain, jobs, end)
        samples = [(finish, sample) for finish, sample in outputs if sample is not None]
        age = chain_runs.age(outputs, end)
        bound = chain_bounds.bound_in(tasks, order, responses, chain)
        words = ["chain", chain.name, len(samples), "age", age, "reaction", chain_runs.reaction(samples), "bound", bound]
        lines.append(" ".join("-" if word is None else str(word) for word in words))
        late = 0 if chain.writes == "finish" else sum(late_of(name, seen) for name in chain.tasks)
        # Who is seen late may seem to miss, on their clock, what another hands over.
        held = chain_bounds.bound_in(tasks, order, responses, chain._replace(offsets=())) if late else bound
        most = None if held is None else held + late
        if age is not None and most is not None and age - most > tolerance:
            broken.append(f"age {chain.name} {age} of {most}")
            lines.append(broken[-1])
    return lines, bool(broken)


def late_of(name, seen):
    """How late the jobs of a task may be seen to arrive: by its jitter, where one doesn't say when it was ready."""
    return max((one.task.jitter for one in seen if one.job.name == name and one.job.ready is None), default=0)


def outputs_of(chain, jobs, starts):
    """When each output comes, and its sample, if it has one."""
    return back([done(name, jobs, starts) for name in chain.tasks])


def back(written):
    """Of what the jobs of a chain's tasks write, when, each with when it read: that of the last one, each with its sample."""
    found = []
    for finish, start in written[-1]:
        for before in reversed(written[:-1]):
            start = max((it for it in before if it[0] <= start), default=(0, None))[1] if start is not None else None
        found.append((finish, start))
    return found


def deadline_outputs(tasks, chain, jobs, end):
    """The same where tasks write at their deadlines: each job reads as it arrives."""
    deadlines = {task.name: task.deadline for task in tasks}
    written = [sorted((job.arrival + deadlines[name], job.arrival) for job in jobs if job.name == name) for name in chain.tasks]
    return [(finish, sample) for finish, sample in back(written) if finish <= end]


def done(name, jobs, starts):
    """The jobs of a task that finish before its next one starts, by their finish, each with its start."""
    own = sorted((starts[k], jobs[k].finish) for k in starts if k is not None and jobs[k].name == name)
    nexts = [start for start, _ in own[1:]] + [None]
    return sorted(
        (finish, start) for (start, finish), after in zip(own, nexts) if finish is not None and (after is None or finish <= after)
    )
