"""Release lists and the simulated kernel: DEFINITIONS.md, The simulated kernel; FORMATS.md, Release lists."""

from typing import NamedTuple

import settings
from lines import Faulty, all_lines, kept_lines, name_in, number_in, read_lines
from refusals import Refused

HORIZON = 60_000_000
RELEASES_MOST = 10_000


class Release(NamedTuple):
    arrival: int
    name: str
    late: int
    runs: int | None = None  # for how long its job executes; None: for its task's cost

    @property
    def ready(self):
        return self.arrival + self.late


def read_releases(data):
    """The settings in front, until when, and the releases as they are written."""
    rows, lines = settings.in_front(kept_lines(data))
    if not lines:
        raise Refused(4, "BadLine", len(all_lines(data)) + 1)
    (until,) = read_lines(lines[:1], read_until)
    return rows, until, read_lines(lines[1:], read_release)


def read_until(words):
    if len(words) != 2 or words[0] != "until":
        raise Faulty
    return number_in(words[1])


def read_release(words):
    runs = None
    if len(words) in (4, 5) and words[-2] == "runs":
        *words, _, word = words
        runs = number_in(word)
    if len(words) not in (2, 3):
        raise Faulty
    return Release(number_in(words[0]), name_in(words[1]), number_in(words[2]) if len(words) == 3 else 0, runs)


def check_releases(tasks, until, releases):
    """The first refusal; each check goes over all releases before the next."""
    task = {task.name: task for task in tasks}
    places = list(enumerate(releases, 1))
    for place, release in places[1:]:
        if release.arrival < releases[place - 2].arrival:
            raise Refused(4, "Unsorted", place)
    for place, release in places:
        if release.name not in task:
            raise Refused(4, "UnknownTask", place)
    last = {}
    for place, release in places:
        if release.name in last and release.arrival < last[release.name] + task[release.name].period:
            raise Refused(4, "TooSoon", place)
        last[release.name] = release.arrival
    for place, release in places:
        if release.late > task[release.name].jitter:
            raise Refused(4, "TooLate", place)
    for place, release in places:
        if release.runs is not None and not 1 <= release.runs <= task[release.name].cost:
            raise Refused(4, "OutsideCost", place)
    if until > HORIZON or any(release.ready >= until for release in releases):
        raise Refused(4, "PastHorizon")
    if len(releases) > RELEASES_MOST:
        raise Refused(4, "TooMany")


class Job:
    def __init__(self, release, task, level, ceilings):
        self.release, self.task, self.level, self.ceilings = release, task, level, ceilings
        self.executes = task.cost if release.runs is None else release.runs
        self.executed = 0
        self.finish = None

    def active(self):
        """The highest of the job's own level and the ceilings of the locks that it holds at this tick boundary."""
        inside = [section for section in self.task.sections if section.at < self.executed < section.end]
        return max([self.level, *(self.ceilings[lock] for section in inside for lock in section.locks)])

    def ticks_alike(self):
        """For how many ticks to come its active priority can't change unless it ends."""
        turns = [turn for section in self.task.sections for turn in (section.at + 1, section.end)]
        return min(turn - self.executed for turn in [*turns, self.executes] if turn > self.executed)


class Slice(NamedTuple):
    start: int
    stop: int
    job: Job
    first: int  # how much the job had executed before it


def run(tasks, order, ceilings, until, releases):
    """The slices by time, and the jobs in the order of the releases."""
    level = {tasks[i].name: number for number, i in enumerate(order, 1)}
    task = {task.name: task for task in tasks}
    jobs = [Job(release, task[release.name], level[release.name], ceilings) for release in releases]
    coming = sorted(jobs, key=lambda job: job.release.ready, reverse=True)
    pending, slices, now = [], [], 0
    while now < until:
        while coming and coming[-1].release.ready <= now:
            pending.append(coming.pop())
        next_ready = coming[-1].release.ready if coming else until
        if not pending:
            now = next_ready
            continue
        # the pending job of greatest active priority, among equals the one of lower own level
        job = max(pending, key=lambda job: (job.active(), -job.level))
        ticks = min(job.ticks_alike(), next_ready - now)
        if slices and slices[-1].job is job and slices[-1].stop == now:
            slices[-1] = slices[-1]._replace(stop=now + ticks)
        else:
            slices.append(Slice(now, now + ticks, job, job.executed))
        now += ticks
        job.executed += ticks
        if job.executed == job.executes:
            job.finish = now
            pending.remove(job)
    return slices, jobs


def overruns(jobs):
    """The releases of jobs that become ready while the one before of their task isn't finished."""
    last, over = {}, []
    for job in jobs:
        before = last.get(job.task.name)
        if before is not None and (before.finish is None or before.finish > job.release.ready):
            over.append(job.release)
        last[job.task.name] = job
    return over


def cut(tasks, order, ceilings, until, releases):
    """How much of a list is shown: its end and its releases; or, where some become ready so, when the first of them does, and
    what is ready before. The first's name stands behind."""
    _, jobs = run(tasks, order, ceilings, until, releases)
    over = overruns(jobs)
    if not over:
        return until, releases, None
    first = min(over, key=lambda release: release.ready)
    return first.ready, [release for release in releases if release.ready < first.ready], first.name


def simulated(slices, jobs):
    lines = [f"{part.start} {part.stop} {part.job.task.name}" for part in slices]
    for job in jobs:
        lines.append(f"job {job.task.name} {job.release.arrival} {'-' if job.finish is None else job.finish}")
    return "".join(line + "\n" for line in lines)


def came_to(task, bound, jobs):
    """How many jobs of a task are done, the greatest response among them, and its bound, if it has one."""
    responses = [job.finish - job.release.arrival for job in jobs if job.task.name == task.name and job.finish is not None]
    return f"task {task.name} {len(responses)} {max(responses, default='-')} {'-' if bound is None else bound}\n"


def words_of(task_rank, seed):
    """A task's own words, from the first that is used."""
    word, number = (seed + task_rank * 2**32) % 2**64, 0
    while True:
        word, number = (word * 6364136223846793005 + 1442695040888963407) % 2**64, number + 1
        if number >= 3:
            yield word


def offsets_of(tasks):
    """When the first job of each task arrives whose offset a chain has."""
    return {name: offset for chain in getattr(tasks, "chains", ()) for name, offset in zip(chain.tasks, chain.offsets)}


def random_list(tasks, until, seed):
    """The jobs of each task that are ready before the end, by time, those of one time by rank. Those of chains' tasks come
    exactly a period apart, from their offsets on, if they have some."""
    ranked, steady, offsets = [], {it for chain in getattr(tasks, "chains", ()) for it in chain.tasks}, offsets_of(tasks)
    for rank, task in enumerate(tasks):
        words = words_of(rank, seed)
        draw = lambda below: (next(words) >> 32) * below >> 32
        arrival = draw(task.period)
        arrival = offsets.get(task.name, arrival)
        while arrival < until:
            spread = 0 if task.name in steady else task.period
            late, runs_cost, less, comes_late, gap = draw(task.jitter + 1), draw(4), draw(task.cost), draw(4), draw(spread)
            if arrival + late < until:
                ranked.append((arrival, rank, late, None if runs_cost == 0 else 1 + less))
            arrival += task.period + (gap if comes_late == 0 else 0)
    if len(ranked) > RELEASES_MOST:
        raise Refused(4, "TooMany")
    return [Release(arrival, tasks[rank].name, late, runs) for arrival, rank, late, runs in sorted(ranked, key=lambda job: job[:2])]


def densest(tasks, until):
    """All tasks become ready together at the greatest jitter, each first job as late as may be; then a period apart. The first job of
    one with an offset arrives there."""
    start, offsets = max((task.jitter for task in tasks), default=0), offsets_of(tasks)
    first = [offsets.get(task.name, start - task.jitter) for task in tasks]
    later = [range(arrival + task.period, until, task.period) for arrival, task in zip(first, tasks)]
    ready = [rank for rank, (arrival, task) in enumerate(zip(first, tasks)) if arrival + task.jitter < until]
    if len(ready) + sum(map(len, later)) > RELEASES_MOST:
        raise Refused(4, "TooMany")
    ranked = [(first[rank], rank, tasks[rank].jitter) for rank in ready]
    ranked += [(arrival, rank, 0) for rank, arrivals in enumerate(later) for arrival in arrivals]
    return [Release(arrival, tasks[rank].name, late) for arrival, rank, late in sorted(ranked)]


def release_list(until, releases):
    lines = [f"until {until}"]
    for arrival, name, late, runs in releases:
        words = [arrival, name, *([late] if late else []), *(["runs", runs] if runs is not None else [])]
        lines.append(" ".join(map(str, words)))
    return "\n".join(lines) + "\n"
