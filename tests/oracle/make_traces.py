"""Random traces: what the simulated kernel prints of a set, one damage of a node in it, or a fault in its lines."""

import analysis
import kernel
import make_lines
import make_sets
import settings
from observed import Job, Slice
from refusals import Refused

FOREIGN = ["irq", "kworker_0", "a1", "Zed"]


def trace_of(rng, tasks):
    """Of the set in some order, which may stand in front; mostly with one damage; at times with gaps between the lines, or
    other words in them."""
    front = make_lines.settings_of(rng, tasks) if rng.random() < 0.4 else b""
    slices, jobs = run_of(rng, tasks, given(tasks, front))
    if rng.random() < 0.4:
        jobs = [readied(rng, tasks, job) if rng.random() < 0.8 else job for job in jobs]
    if rng.random() < 0.4:
        slices = ranked(rng, tasks, given(tasks, front), front, slices)
    if rng.random() < 0.75 and slices:
        slices, jobs = rng.choice([longer, sooner, foreign, paused, swapped, stretched, unfinished])(rng, tasks, slices, jobs)
    data = front + make_lines.with_gaps(rng, spelled(rng, slices, jobs).encode())
    return make_lines.damaged_lines(rng, data) if rng.random() < 0.2 else data


def given(tasks, front):
    """The order that settings give, or the best one; None where there is none."""
    try:
        rows = settings.read_settings(front)
        return settings.node_order(tasks, rows) if rows else analysis.best_order(tasks)
    except Refused:
        return None


def run_of(rng, tasks, order):
    """The slices and jobs of a run, mostly in this order."""
    if order is None or rng.random() < 0.15:
        order = rng.sample(range(len(tasks)), len(tasks))
    period = min((task.period for task in tasks), default=1000)
    until = rng.choice([0, 1, period, period * rng.randint(1, 12)])
    try:
        releases = kernel.random_list(tasks, until, rng.getrandbits(32)) if rng.random() < 0.7 else kernel.densest(tasks, until)
        slices, jobs = kernel.run(tasks, order, analysis.ceilings(tasks, order), until, releases[:400])
    except Refused:
        return [], []
    late = rng.random() < 0.3  # (a job that doesn't say when it was ready may be seen to arrive then)
    seen = [Job(job.task.name, job.release.arrival + late * job.release.late, job.finish) for job in jobs]
    return [Slice(part.start, part.stop, part.job.task.name) for part in slices], sorted(seen, key=lambda job: job.arrival)


def spelled(rng, slices, jobs):
    """The slices in their order and the jobs in theirs, as `simulate` prints them or mixed."""
    said = lambda mark, value: "" if value is None else f" {mark}{value}"
    lines = [f"{part.start} {part.stop} {part.name}{said('@', part.priority)}\n" for part in slices]
    more = [
        f"job {job.name} {job.arrival} {'-' if job.finish is None else job.finish}{said('', job.ready)}\n" for job in jobs
    ]
    if rng.random() < 0.7:
        return "".join(lines + more)
    mixed = []
    while lines or more:
        mixed.append((lines if rng.random() * (len(lines) + len(more)) < len(lines) else more).pop(0))
    return "".join(mixed)


def ranked(rng, tasks, order, front, slices):
    """Slices at the priorities of their threads or at ceilings of their locks, now and then at others."""
    if order is None:
        return slices
    said = settings.of_kind(settings.read_settings(front), "thread")
    numbers = {name: number for _, name, number in said} or {tasks[i].name: level for level, i in enumerate(order, 1)}
    named = {task.name: task for task in tasks}
    ceilings = {lock: numbers[tasks[order[level - 1]].name] for lock, level in analysis.ceilings(tasks, order).items()}
    wrong = rng.choice([0, 0, 0.02, 0.3])

    def one(part):
        task = named.get(part.name)
        if task is None or rng.random() < wrong:
            return part._replace(priority=rng.choice([0, 1, 2, 99, 9999999999, *numbers.values()]))
        own = [ceilings[lock] for section in task.sections for lock in section.locks]
        return part._replace(priority=rng.choice([None, numbers[part.name], numbers[part.name], *own]))

    return [one(part) for part in slices]


def readied(rng, tasks, job):
    """A job that says when it was ready: within its jitter, or later."""
    jitter = next((task.jitter for task in tasks if task.name == job.name), 0)
    ready = job.arrival + rng.choice([0, rng.randint(0, jitter), jitter, jitter + some(rng)])
    return job._replace(ready=ready if job.finish is None else min(ready, job.finish))


def later(rows, time, by):
    """All that is from a time on, later."""
    move = lambda at: at if at is None or at < time else at + by
    return [row._replace(**{field: move(getattr(row, field)) for field in row._fields if field in ("start", "stop")}) for row in rows]


def some(rng):
    return rng.choice([1, 1, 2, 30, rng.randint(1, 5000)])


def longer(rng, tasks, slices, jobs):
    """A slice takes longer, and all behind it comes later."""
    place, by = rng.randrange(len(slices)), some(rng)
    stop = slices[place].stop
    slices = later(slices[:place], stop + 1, by) + [slices[place]._replace(stop=stop + by)] + later(slices[place + 1 :], stop, by)
    return slices, [moved(job, stop, by) for job in jobs]


def moved(job, stop, by):
    """A job whose finish, and whose arrival where that is behind, comes later."""
    finish = job.finish if job.finish is None or job.finish < stop else job.finish + by
    ready = job.ready if job.ready is None or job.ready <= stop else job.ready + by
    return job._replace(arrival=job.arrival if job.arrival <= stop else job.arrival + by, finish=finish, ready=ready)


def sooner(rng, tasks, slices, jobs):
    """A job arrives some time before it did."""
    place = rng.randrange(len(jobs))
    jobs = list(jobs)
    jobs[place] = jobs[place]._replace(arrival=max(0, jobs[place].arrival - some(rng)))
    return slices, sorted(jobs, key=lambda job: job.arrival)


def foreign(rng, tasks, slices, jobs):
    """A thread of the node's own executes inside a slice or between two."""
    slices, jobs, time = opened(rng, slices, jobs)
    by = some(rng)
    at = sum(part.stop <= time for part in slices)
    slices, jobs = later(slices, time, by), [moved(job, time, by) for job in jobs]
    slices.insert(at, Slice(time, time + by, rng.choice(FOREIGN)))
    return slices, jobs


def paused(rng, tasks, slices, jobs):
    """Nobody executes for a while."""
    slices, jobs, time = opened(rng, slices, jobs)
    by = some(rng)
    return later(slices, time, by), [moved(job, time, by) for job in jobs]


def opened(rng, slices, jobs):
    """A slice in two, at a time inside it, or none where it is one tick long."""
    place = rng.randrange(len(slices))
    part = slices[place]
    if part.stop - part.start < 2:
        return list(slices), jobs, part.start
    time = rng.randint(part.start + 1, part.stop - 1)
    return [*slices[:place], part._replace(stop=time), part._replace(start=time), *slices[place + 1 :]], jobs, time


def swapped(rng, tasks, slices, jobs):
    """Another thread executes in a slice."""
    place = rng.randrange(len(slices))
    name = rng.choice([*(task.name for task in tasks), rng.choice(FOREIGN)])
    return [*slices[:place], slices[place]._replace(name=name), *slices[place + 1 :]], jobs


def stretched(rng, tasks, slices, jobs):
    """A job finishes some time after or before it did, or its arrival is another."""
    place = rng.randrange(len(jobs))
    hit, by = jobs[place], rng.choice([-1, 1]) * some(rng)
    finish = None if hit.finish is None else max(hit.arrival, hit.finish + by)
    return slices, [*jobs[:place], hit._replace(finish=finish), *jobs[place + 1 :]]


def unfinished(rng, tasks, slices, jobs):
    """A job never finishes; at times the trace ends some time later."""
    place = rng.randrange(len(jobs))
    jobs = [*jobs[:place], jobs[place]._replace(finish=None), *jobs[place + 1 :]]
    end = max(part.stop for part in slices)
    more = [Job(rng.choice(FOREIGN), max(jobs[-1].arrival, end + some(rng)), None)] if rng.random() < 0.5 else []
    return slices, jobs + more
