"""What the chains of a set came to in a run: DEFINITIONS.md, Chains of tasks; FORMATS.md, `simulate`."""

import chain_bounds


def lines_of(tasks, order, responses, slices, jobs, until):
    """A line for each chain: its outputs, the greatest age and reaction among them, and its bound in the order; behind it one
    for each of its tasks that isn't on its clock."""
    starts = {}
    for part in slices:
        starts.setdefault(part.job, part.start)
    lines = []
    for chain in tasks.chains:
        lines += [line_of(tasks, order, responses, chain, starts, jobs, until), *strays(chain, jobs)]
    return lines


def strays(chain, jobs):
    """Of each task with an offset the first job that doesn't arrive there, or whole periods later."""
    for name, offset in zip(chain.tasks, chain.offsets):
        own = ((job.release.arrival, job.release.arrival % job.task.period) for job in jobs if job.task.name == name)
        stray = next((it for it in own if it[1] != offset), None)
        if stray is not None:
            yield f"offset {name} {stray[0]} {stray[1]} of {offset}\n"


def line_of(tasks, order, responses, chain, starts, jobs, until):
    written = [writes_of(chain, name, starts, jobs) for name in chain.tasks]
    outputs = [(time, sample_of(written[:-1], read)) for time, read in written[-1] if time <= until]
    samples = [(finish, sample) for finish, sample in outputs if sample is not None]
    bound = chain_bounds.bound_in(tasks, order, responses, chain)
    words = ["chain", chain.name, len(samples), "age", age(outputs, until), "reaction", reaction(samples), "bound", bound]
    return " ".join("-" if word is None else str(word) for word in words) + "\n"


def writes_of(chain, name, starts, jobs):
    """When the jobs of a task write, each with when it read: at its finish and its start, or at its deadline and its arrival."""
    own = [job for job in jobs if job.task.name == name]
    if chain.writes == "deadline":
        return sorted((job.release.arrival + job.task.deadline, job.release.arrival) for job in own)
    return sorted((job.finish, starts[job]) for job in own if job.finish is not None)


def sample_of(written, read):
    """When the first job of an output's path read, where it has one: back from each job to the newest that was written when it
    read."""
    for writes in reversed(written):
        done = [other for other in writes if other[0] <= read]
        if not done:
            return None
        _, read = max(done)
    return read


def age(outputs, until):
    """The greatest age of an output at the instant of the next one, or at the end."""
    ends = [finish for finish, _ in outputs[1:]] + [until]
    return max((end - sample for end, (_, sample) in zip(ends, outputs) if sample is not None), default=None)


def reaction(samples):
    """The greatest time from just after the sample of an output to the first output with a later one."""
    found = []
    for _, sample in samples:
        later = [finish for finish, other in samples if other > sample]
        if later:
            found.append(min(later) - sample)
    return max(found, default=None)
