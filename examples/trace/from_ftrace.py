#!/usr/bin/env python3
"""Writes what the Linux scheduler traced as a trace for `desk observe`.

usage: from_ftrace.py [OPTION..] THREAD=TASK.. < REPORT > TRACE

REPORT is the text of `trace-cmd report`, of the file `trace` of the kernel, of `perf script` or `perf sched script`,
or of `babeltrace --clock-seconds` over LTTng's record, of all processors, in the order of time. THREAD is a thread's
name in the kernel (15 bytes at most) or its number, TASK the name of its task in the set; where the record has no such
thread, a note names those that it has. All other threads are of the node's own, and keep their names, spelled as a
name of the desk. How to record is in examples/posix/README.md.

    --cpu N           the processor; without it that on which the first of the threads executes
    --ready           a fourth word in job lines, where the arrival is exact: when the job became ready
    --priorities      a last word @P in a slice's line: the SCHED_FIFO priority of the thread
    --signalled TASK  another thread's waking, too, is an arrival of this task
    --jobless         it is meant that some task has no job

The node's settings stand in front of the trace where its priorities aren't those of the set's best order:

    { cat node.settings; trace-cmd report | from_ftrace.py ctl=control log=logger; } | desk observe set.toml -

What it takes for what:
- A waking from an interrupt is an arrival: while a timer expires, in an interrupt by the line's own flags or by the
  events of interrupts, by a thread of interrupts, or while nobody executes. Where the record shows the start of the
  timer, the job arrives when the timer was due, and is ready when it fired, or at its arrival where that was past when
  the timer was set. Else it arrives as it is woken; where it was due before the last job of its task, or one that is
  written, with that. No such arrival is exact.
- A cancelled timer that expires before it is set again expires as it was set, for older kernels trace each expiry as a
  cancel, too. Where the expiry before wasn't, where it was cancelled twice or isn't due yet, it was set unseen.
- A waking by a thread that executes is the end of a wait inside a job, as for a lock; so is each waking of a thread
  that waited without letting signals in (state D). Where the record has neither flags nor events of timers, or doesn't
  show who executes, a waking while another thread executes is taken as an arrival, with a note.
- A waking of the thread that executes is its next arrival: its last job overran. Where it waits for a time that is past
  there is no waking, as a rule: both jobs are one then, with the cost of both.
- A job has finished when its thread last fell asleep before its next arrival, or before the end of the record.
- What a thread executes before its first arrival is of no job that is known: its name has `-before` behind it. A job
  that waits for it is told that it waits for another thread: begin a record while nobody executes.
- The time of interrupts whose entry and exit are recorded is of `irq-NAME` or `softirq-NAME`; that of others stands
  for the thread that they interrupt, and what a switch takes for the thread before.
- What the record has, who executes on a processor before its first switch and in which interrupt is known from the
  next 100,000 lines, too.
- Where the priority at the begin of a slice isn't that at its end, the last microsecond has that of the end.

Refused, with the line: lost events, a switch from a thread that didn't execute or in an interrupt or timer, a timer
that ends without a begin, an interrupt that ends inside another, a timer of a task that fires again without being set,
a task on two processors or with two threads, a thread that executes though nothing woke it or is woken twice, a time
before that of the line above, a line of these events that can't be read. Lines that aren't understood, and what is odd
without being wrong, are noted with their first line.

Times are whole microseconds from the first event of the processor, rounded down; what lasts less than one is left out.
Statuses: 0 done, 1 a fault of this program itself, 2 wrong words, 3 a task has no job, 4 refused, 5 standard input or
output fails. What standard error does changes none. But for 0 and 2, and as far as it can be written, the trace ends
with a line that desk refuses.
"""
import argparse
import bisect
import itertools
import os
import re
import signal
import sys
import traceback

SECOND = 1_000_000_000
NAME_MOST = 24
# So many threads of the node's own are remembered at once, and so many lines are looked at ahead.
KNOWN_MOST = AHEAD_MOST = 100_000

# The begin of a line of ftrace and trace-cmd (COMM-PID (TGID) [CPU] FLAGS TIME:) and of perf (COMM PID [CPU] TIME:).
# (All blanks in front of COMM but one are taken at once: no pattern here takes more than linear time on a long line.)
HEAD = re.compile(
    r"(?:[\w.-]+: )? *(?!  )(.{0,15})[ -] *(-?\d{1,10})(?:/-?\d+)? +(?:\([ \d-]+\) +)?\[(\d{1,5})\] +"
    r"(?:([^\s:]{4,8}) +)?(\d{1,12})(?:\.(\d{1,9}))?: +(?:\d+ +)?(?:[\w-]+:)?([\w-]+):(?: +(.*)|$)",
    re.ASCII,
)
LTTNG = re.compile(
    r"\[(?:(\d\d):(\d\d):)?(\d{1,12})\.(\d{9})\] (?:\([^)]*\) )?(?:[^\s:{}]+ )?"
    r"(?:timer_(?=h)|irq_(?=s))?(\w+): (\{.*\})",
    re.ASCII,
)
FIELD = re.compile(r'(?<!\w)(\w+) = (?:\( "[^"]*" : container = (-?\d+) \)|"((?:[^"\\]|\\.)*)"|([^\s,{}()"]+))', re.ASCII)
WORD = re.compile(r"(?<!\w)(\w+)=(\S+)", re.ASCII)
# Behind the event's name; in front as the kernel writes them, behind as trace-cmd does.
SWITCH = re.compile(
    r"prev_comm=(.{0,15}) prev_pid=(\d{1,10}) prev_prio=(-?\d{1,10}) prev_state=(\S+) ==> "
    r"next_comm=(.{0,15}) next_pid=(\d{1,10}) next_prio=(-?\d{1,10})",
    re.ASCII,
)
SHORT_BEFORE = re.compile(r"(.{0,15}):(\d{1,10}) \[(-?\d{1,10})\] (\S+)", re.ASCII)
SHORT_AFTER = re.compile(r"(.{0,15}):(\d{1,10}) \[(-?\d{1,10})\]", re.ASCII)
WAKING = re.compile(
    r"comm=(.{0,15}) pid=(\d{1,10}) prio=(-?\d{1,10})(?: success=\d)? target_cpu=(\d{3,5})", re.ASCII
)
SHORT_WAKING = re.compile(r"(.{0,15}):(\d{1,10}) \[(-?\d{1,10})\](?: .*)? CPU:(\d{3,5})", re.ASCII)
MOVED = re.compile(
    r"comm=(.{0,15}) pid=(\d{1,10}) prio=(-?\d{1,10}) orig_cpu=(\d{1,5}) dest_cpu=(\d{1,5})(?: .*)?", re.ASCII
)
STATE = re.compile(r"[RSDTtXZxKWPNI](?:\|[A-Za-z]+)*\+?")
LOST = re.compile(r"CPU:? *(\d{1,5}) \[(?:LOST \d+ EVENTS|(?:\d+ )?EVENTS DROPPED)\]", re.ASCII)
DISCARDED = re.compile(r"Tracer (?:may have )?discarded")
OVERWRITTEN = re.compile(r"# entries-in-buffer/entries-written: (\d+)/(\d+)", re.ASCII)
PROSE = re.compile(r"\s*$|#|cpus=\d+$|version = |CPU \d+ is empty|trace-cmd|\s*kernel: ", re.ASCII)
# Threads of the kernel that do the work of interrupts.
OF_INTERRUPTS = re.compile(r"irq/\d|ksoftirqd/\d|ktimers?(?:softd)?/\d")
# The interrupts whose entry and exit are events of their own.
HARD = {"irq_handler", "ipi", "local_timer", "reschedule", "call_function", "call_function_single", "irq_work",
        "thermal_apic", "threshold_apic", "deferred_error_apic", "error_apic", "spurious_apic", "x86_platform_ipi"}
TIMERS = ["hrtimer_start", "hrtimer_cancel", "hrtimer_expire_entry", "hrtimer_expire_exit"]
MARKS = {f"{name}_{end}" for name in HARD | {"softirq"} for end in ("entry", "exit")}
EXPIRE = "hrtimer_expire"
# LTTng has the state of a thread as a number.
STATES = {0: "R", 1: "S", 2: "D", 4: "T", 8: "t", 16: "X", 32: "Z", 64: "P", 128: "I", 256: "R+"}


class Refused(Exception):
    """What is wrong with the record."""


class Failed(Exception):
    """What is wrong with standard input or output."""


def refuse(line, sentence):
    raise Refused(f"line {line}: {sentence}")


notes = {}


def note(kind, line, sentence):
    """Remembers what is odd: its first line, and how many there are."""
    notes.setdefault(kind, [line, sentence, 0])[2] += 1


class Event:
    """A line: `header` is the number of the thread that executed, or None where the line doesn't have it."""

    __slots__ = ("line", "time", "cpu", "header", "flags", "name", "rest")

    def __init__(self, line, time, cpu, header, flags, name, rest):
        self.line, self.time, self.cpu, self.header = line, time, cpu, header
        self.flags, self.name, self.rest = flags, name, rest

    def unread(self):
        refuse(self.line, f"{self.name} in a spelling that isn't known: {self.rest[:60]}")


# ---- Lines. ----


def unescaped(text):
    """A string of babeltrace."""
    return re.sub(r"\\(.)", r"\1", text)


def lttng_event(line, found):
    """An event of LTTng, its fields written as the kernel writes them. Its `prio` is less by 100."""
    hours, minutes, seconds, fraction, name, body = found.groups()
    fields = {key: unescaped(text) if text else mark or word for key, mark, text, word in FIELD.findall(body)}
    time = ((int(hours or 0) * 60 + int(minutes or 0)) * 60 + int(seconds)) * SECOND + int(fraction)
    for key in ("prio", "prev_prio", "next_prio"):
        if re.fullmatch(r"-?\d{1,9}", fields.get(key, "")):
            fields[key] = int(fields[key]) + 100
    try:
        if name == "sched_switch":
            fields["prev_state"] = STATES.get(int(fields["prev_state"]), "?")
            rest = (
                "prev_comm={prev_comm} prev_pid={prev_tid} prev_prio={prev_prio} prev_state={prev_state} ==> "
                "next_comm={next_comm} next_pid={next_tid} next_prio={next_prio}".format(**fields)
            )
        elif name == "sched_waking":
            rest = "comm={comm} pid={tid} prio={prio} target_cpu={target_cpu:0>3}".format(**fields)
        elif name == "sched_migrate_task":
            rest = "comm={comm} pid={tid} prio={prio} orig_cpu={orig_cpu} dest_cpu={dest_cpu}".format(**fields)
        elif name == "softirq_entry":
            rest = f"vec={fields['vec']} [action={fields['vec']}]"
        elif name == "irq_handler_entry":
            rest = "irq={irq} name={name}".format(**fields)
        else:
            rest = " ".join(f"{key}={value}" for key, value in fields.items())
        return Event(line, time, int(fields["cpu_id"]), None, None, name, rest)
    except (KeyError, ValueError):
        return Event(line, time, 0, None, None, name, body).unread()


def event_of(line, text):
    """The event of a line, or None."""
    found = HEAD.fullmatch(text)
    if found:
        _, pid, cpu, flags, seconds, fraction, name, rest = found.groups()
        if fraction is None:
            refuse(line, "a time without a fraction of a second: record by a clock of seconds, as `local` or `mono`")
        time = int(seconds) * SECOND + int(fraction.ljust(9, "0"))
        return Event(line, time, int(cpu), int(pid), flags, name, rest or "")
    found = LTTNG.fullmatch(text)
    return lttng_event(line, found) if found else None


def state_of(event, word):
    if not STATE.fullmatch(word):
        refuse(event.line, f"a thread's state that isn't known: {word}")
    return "R" if word.endswith("+") else word[0]


def short_switches(text):
    """Each way to read the switch of trace-cmd, whose names may have anything in them."""
    for found in re.finditer(" ==> ", text):
        before, after = SHORT_BEFORE.fullmatch(text, 0, found.start()), SHORT_AFTER.fullmatch(text, found.end())
        if before and after:
            yield before.groups() + after.groups()


def switch_of(event):
    """(name, number, priority) and state of the thread before, then the thread behind."""
    found = SWITCH.fullmatch(event.rest)
    ways = [found.groups()] if found else [way for way in short_switches(event.rest)]
    if len(ways) > 1:
        ways = [way for way in ways if int(way[1]) == event.header]
    if len(ways) != 1:
        event.unread()
    comm, pid, prio, state, next_comm, next_pid, next_prio = ways[0]
    return (comm, int(pid), int(prio)), state_of(event, state), (next_comm, int(next_pid), int(next_prio))


def waking_of(event):
    """The thread that is woken, and its processor."""
    found = WAKING.fullmatch(event.rest) or SHORT_WAKING.fullmatch(event.rest)
    if not found:
        event.unread()
    comm, pid, prio, cpu = found.groups()
    return (comm, int(pid), int(prio)), int(cpu)


def lost_of(text):
    """Whether a line says that events are lost, and the number of the processor, or None."""
    found = LOST.match(text)
    if found:
        return True, int(found.group(1))
    head, lost, _ = text.partition("PERF_RECORD_LOST")
    found = re.search(r"\[(\d{1,5})\]", head, re.ASCII) if lost else None
    return bool(lost or DISCARDED.search(text)), int(found.group(1)) if found else None


def lines_of(stream):
    """Each line with its number. One that isn't ended is cut, and none."""
    if stream is None:
        raise Failed("standard input is closed")
    try:
        for line, text in enumerate(stream, 1):
            if text.endswith("\n"):
                yield line, text[:-1]
            else:
                note("cut", line, "isn't ended, and is left out")
    except OSError as fault:
        raise Failed(f"standard input fails: {fault.strerror}") from None


# ---- Names. ----


def spelled(name):
    """A name of the desk."""
    name = re.sub(r"[^A-Za-z0-9_-]", "_", name)
    return (name if name[:1].isalpha() else f"t{name}")[:NAME_MOST]


class Names:
    """Which task a thread is of, and how each name is written."""

    def __init__(self, words):
        self.words = dict(word.rsplit("=", 1) for word in words)
        self.tasks = list(dict.fromkeys(self.words.values()))
        self.known, self.seen, self.found = {}, set(), set()

    def task(self, comm, pid):
        """The task's name, or None. A name of before keeps its answer."""
        key = comm, pid
        if key not in self.known:
            if len(self.known) > KNOWN_MOST:
                self.known = {}
            word = str(pid) if str(pid) in self.words else comm
            self.known[key] = self.words.get(word) if pid else None
            self.found.add(word)
            if pid:
                self.seen.add(comm)
        return self.known[key]

    def foreign(self, comm):
        name = spelled(comm)
        if name in self.words.values() or name.startswith(("irq-", "softirq-")):
            name = f"x_{name}"[:NAME_MOST]
        return name

    def missing(self):
        """What there is to say of threads that the record doesn't have."""
        missing = [word for word in self.words if word not in self.found]
        names = ", ".join(sorted(self.seen)) or "none"
        return [f"note: the record has no thread {', '.join(missing)}; it has {names}"] if missing else []


# ---- What the threads of the tasks do. ----


class Job:
    __slots__ = ("line", "task", "arrival", "ready", "finish", "closed")

    def __init__(self, line, task, arrival, ready):
        self.line, self.task, self.arrival, self.ready = line, task, arrival, ready
        self.finish, self.closed = None, False


class Thread:
    """A task's thread. `doing` is executing, ready, asleep (since `line`), or None: not known."""

    def __init__(self, task, comm, pid, line):
        self.task, self.comm, self.pid, self.named = task, comm, pid, line
        self.cpu = self.cpu_line = self.doing = self.job = None
        self.line, self.out, self.may_finish, self.excused, self.seen, self.woken = line, None, True, False, False, None

    def name(self):
        return self.task if self.job else f"{self.task[: NAME_MOST - len('-before')]}-before"


class Cpu:
    """A processor: who executes (not known before its first switch) since when, and in which interrupts and timers."""

    def __init__(self):
        self.running = self.line = self.since = self.first = self.last = None
        self.hard, self.soft, self.expiring, self.slices, self.timed = [], [], [], [], False
        self.clock = None  # a time of the record, and that of the timers' clock
        self.within = None  # in how many interrupts and timers it is that began before the record, once that was asked

    def concerns(self, time):
        if self.first is None:
            self.first = self.since = time
        self.last = time

    def interrupted(self):
        """The name of the interrupt that executes, or None."""
        return (self.hard or self.soft)[-1][1] if self.hard or self.soft else None


class Output:
    """Writes lines when they are known: slices as they end, jobs by arrivals."""

    def __init__(self, stream, words):
        self.stream, self.words, self.first = stream, words, None
        self.jobs, self.written, self.counts, self.lines = [], None, {}, []

    def put(self, line):
        self.lines.append(line)
        if len(self.lines) > 10_000:
            self.flush()

    def flush(self):
        if self.stream is None:
            raise Failed("standard output is closed")
        try:
            self.stream.write("".join(f"{line}\n" for line in self.lines))
            self.stream.flush()
        except OSError as fault:
            raise Failed(f"standard output fails: {fault.strerror}") from None
        self.lines = []

    def at(self, time):
        """In whole microseconds from the first event."""
        return (time - self.first) // 1000

    def slice(self, start, stop, name, prio):
        start, stop = self.at(start), self.at(stop)
        if start < stop:
            word = f" @{99 - prio}" if self.words.priorities and prio is not None and 0 <= prio < 99 else ""
            self.put(f"{start} {stop} {name}{word}")

    def open(self, job):
        bisect.insort(self.jobs, (job.arrival, job.line, job))
        self.counts[job.task] = self.counts.get(job.task, 0) + 1

    def close_jobs(self, every=False):
        """Writes those from the first on that are closed."""
        count = 0
        while count < len(self.jobs) and (every or self.jobs[count][2].closed):
            job = self.jobs[count][2]
            if job.arrival < self.first:
                refuse(job.line, f"{job.task} arrives before the first event of its processor")
            finish = "-" if job.finish is None else self.at(job.finish)
            ready = f" {self.at(job.ready)}" if self.words.ready and job.ready is not None else ""
            self.put(f"job {job.task} {self.at(job.arrival)} {finish}{ready}")
            self.written, count = job.arrival, count + 1
        del self.jobs[:count]


class Trace:
    """The trace of one processor, as the events come."""

    def __init__(self, lines, names, words, output):
        self.lines, self.names, self.words, self.output = lines, names, words, output
        self.cpus, self.threads, self.of_task = {}, {}, {}
        self.node = words.cpu
        self.timers, self.starts_known = {}, False
        self.plain = False  # whether the last one to expire wasn't cancelled in front of that
        self.wakings, self.time = 0, None
        self.fired = {}  # of the timers that woke a task, and weren't set since: where they expired
        self.inside = {}  # of a thread that was switched out: the softirqs and timers that it is in
        self.exits = {}  # of each kind whether its exits are recorded: otherwise entries aren't trusted

    def cpu(self, number):
        if number not in self.cpus:
            self.cpus[number] = Cpu()
        return self.cpus[number]

    # -- What comes.

    def ahead(self):
        """The events of the next lines, up to one that is refused."""
        lines, self.lines = itertools.tee(self.lines)
        for line, text in itertools.islice(lines, AHEAD_MOST):
            try:
                event = event_of(line, text)
            except Refused:
                return
            if event is not None:
                yield event

    def recorded(self, kind):
        """Whether the exits of the kind are recorded: one was, or will be."""
        if kind not in self.exits:
            self.exits[kind] = any(event.name == f"{kind}_exit" for event in self.ahead())
        return self.exits[kind]

    def look(self, number, cpu):
        """Who executes on a processor that hasn't switched yet, and in how many interrupts that began before."""
        begun, cpu.within = [EXPIRE for _ in cpu.expiring] + [kind for _, _, kind in cpu.hard + cpu.soft], 0
        for event in self.ahead():
            if event.cpu != number:
                continue
            if event.name == "sched_switch":
                who = switch_of(event)[0]
                self.thread(event, who)
                self.begins(cpu, who)
                return
            kind, _, end = event.name.rpartition("_")
            if event.name in MARKS or kind == EXPIRE:
                if end == "entry":
                    begun.append(kind)
                elif kind in begun:
                    begun.remove(kind)
                else:
                    cpu.within += 1

    # -- Threads.

    def thread(self, event, who):
        """The task's thread, or None."""
        comm, pid, _ = who
        thread = self.threads.get(pid)
        if thread is not None:
            if thread.comm != comm:
                text = f"thread {pid} of {thread.task} changes its name from {thread.comm} to {comm}"
                note(("renamed", pid), event.line, text)
                thread.comm = comm
            return thread
        task = self.names.task(comm, pid)
        if task is None:
            return None
        other = self.of_task.get(task)
        if other is not None:
            text = f"{task} has two threads, {pid} here and {other.pid} at line {other.named}: say its thread by number"
            refuse(event.line, text)
        thread = self.threads[pid] = self.of_task[task] = Thread(task, comm, pid, event.line)
        return thread

    def executes_on(self, event, thread):
        """A task's thread executes on one processor, the node's."""
        if thread.cpu is None:
            thread.cpu, thread.cpu_line = event.cpu, event.line
        if self.node is None:
            self.node, self.node_line = event.cpu, event.line
        if event.cpu != thread.cpu:
            text = f"{thread.task} executes on processor {event.cpu}, at line {thread.cpu_line} on {thread.cpu}"
            refuse(event.line, text)
        if event.cpu != self.node:
            seen = "" if self.words.cpu is not None else f", as at line {self.node_line}"
            refuse(event.line, f"{thread.task} executes on processor {event.cpu}, not on {self.node}{seen}")

    def note_priority(self, event, thread, prio):
        if not 0 <= prio < 100:
            note(("ordinary", thread.task), event.line, f"{thread.task} executes at no SCHED_FIFO priority")

    # -- Slices.

    def name_of(self, who):
        """The name of a thread in a slice; None while nobody executes."""
        comm, pid, _ = who
        thread = self.threads.get(pid)
        return thread.name() if thread else self.names.foreign(comm) if pid else None

    def cut(self, cpu, time, prio=None):
        """What executed up to now is a slice: begin, end, name, priority at both. The first name may come later."""
        interrupt, start = cpu.interrupted(), cpu.since
        cpu.since = time
        if start is None or start == time:
            return
        if interrupt is not None:
            cpu.slices.append((start, time, interrupt, None, None))
        elif cpu.running is None:
            cpu.slices.append((start, time, None, None, None))
        elif cpu.running[1]:
            cpu.slices.append((start, time, self.name_of(cpu.running), cpu.running[2], prio))

    def begins(self, cpu, who):
        """Who executed from the first event on is known now."""
        name = self.name_of(who)
        named = [it if it[2] is not None else (it[0], it[1], name, None, None) for it in cpu.slices]
        cpu.running, cpu.slices = who, [it for it in named if it[2] is not None]

    def write_slices(self, cpu):
        """Writes those of the node's processor since the last switch; the last one may end at another priority."""
        if self.node is None:
            return
        if cpu is not self.cpus.get(self.node):
            cpu.slices = []
            return
        output = self.output
        if output.first is None:
            output.first = cpu.first
        for start, stop, name, begun, ended in cpu.slices:
            if ended is not None and ended != begun and self.words.priorities:
                output.slice(start, max(start, stop - 1000), name, begun)
                start, begun = max(start, stop - 1000), ended
            output.slice(start, stop, name, begun)
        cpu.slices = []

    # -- Events.

    def switch(self, event):
        before, state, after = switch_of(event)
        self.check_join(event, before)
        cpu, time = self.cpu(event.cpu), event.time
        gone, come = self.thread(event, before), self.thread(event, after)
        if cpu.running is None:
            self.begins(cpu, before)
        self.cut(cpu, time, before[2])
        if gone is not None:
            self.executes_on(event, gone)
            self.note_priority(event, gone, before[2])
            self.switched_out(event, gone, state)
        if cpu.soft or cpu.expiring:
            self.inside[before[1]] = cpu.soft, cpu.expiring
        cpu.soft, cpu.expiring = self.inside.pop(after[1], ([], []))
        cpu.running, cpu.line, cpu.within = after, event.line, 0
        if come is not None:
            self.executes_on(event, come)
            self.note_priority(event, come, after[2])
            self.switched_in(event, come)
        self.write_slices(cpu)

    def check_join(self, event, before):
        """Whether the thread that is switched out executed, and in no interrupt."""
        cpu = self.cpu(event.cpu)
        if cpu.hard:
            self.gap(event, f"a switch in the interrupt {cpu.hard[-1][1]} of line {cpu.hard[-1][0]}")
        elif cpu.running is not None and cpu.running[1] != before[1]:
            since = f" since line {cpu.line}" if cpu.line else ""
            text = f"{before[0]} ({before[1]}) is switched out, but {cpu.running[0]} ({cpu.running[1]}) executes"
            self.gap(event, f"{text} on processor {event.cpu}{since}")
        elif cpu.expiring and not OF_INTERRUPTS.match(before[0]):
            self.gap(event, f"a switch while the timer of line {cpu.expiring[-1][3]} expires")

    def gap(self, event, text):
        """Events are missing in front of one: without a task there, what its processor does is no longer known."""
        if self.node == event.cpu:
            refuse(event.line, f"{text}: events are lost")
        note("other", event.line, f"on a processor without tasks {text}: events are lost")
        self.forget(event.cpu, event.time)

    def forget(self, number, time):
        """What a processor without tasks does is no longer known."""
        self.cpus[number] = Cpu()
        self.cpus[number].concerns(time)

    def switched_out(self, event, thread, state):
        thread.out, thread.line = event.time, event.line
        if state == "R":
            thread.doing = "ready"
            return
        thread.doing, thread.may_finish, thread.seen = "asleep", state in "SXZx", self.wakings > 0
        if thread.job and thread.may_finish:
            thread.job.finish = event.time
        if state in "XZx":
            self.ended(thread)

    def ended(self, thread):
        """The thread is no more: its number and its task may get another one."""
        if thread.job:
            thread.job.closed = True
        del self.threads[thread.pid], self.of_task[thread.task]
        self.names.known.pop((thread.comm, thread.pid), None)
        self.output.close_jobs()

    def switched_in(self, event, thread):
        if thread.doing == "asleep" and not thread.seen:
            thread.job = None  # (it slept before the first waking of the record)
        elif thread.doing == "asleep":
            if not thread.excused:
                text = f"{thread.task} executes though nothing woke it since line {thread.line}: events are lost"
                refuse(event.line, text)
            self.goes_on(thread)
        thread.doing, thread.excused, thread.woken = "executing", False, None

    def goes_on(self, thread):
        """It had not finished."""
        if thread.job:
            thread.job.finish = None

    def waking(self, event):
        who, target = waking_of(event)
        self.wakings += 1
        self.cpu(target).concerns(event.time)
        thread = self.thread(event, who)
        if thread is None:
            return
        cpu = self.cpu(event.cpu)
        if cpu.within is None:
            self.look(event.cpu, cpu)
        here = who[1] == self.executing(event, cpu)
        if here and cpu.running is None:
            self.begins(cpu, who)
        if here and thread.doing is None:
            thread.doing = "executing"
        cause = self.cause(event, cpu) if not here else True
        if cause is None:
            text = "the record doesn't show whether an interrupt or the thread that executes woke"
            note("cause", event.line, f"{text} {thread.task}: taken as an arrival")
        if thread.woken is not None:
            text = f"{thread.task} is woken, as at line {thread.woken}, and hasn't executed between: events are lost"
            refuse(event.line, text)
        if thread.doing != "executing":
            thread.woken = event.line
        waited = thread.doing == "asleep" and not thread.may_finish
        if waited or cause is False and thread.task not in self.words.signalled:
            if thread.doing == "asleep":
                self.goes_on(thread)
                thread.doing = "ready"
        else:
            self.arrives(event, cpu, thread, self.cpu(target).first)
        # (it may yet be switched out as asleep, since it was on its way to sleep when another processor woke it)
        thread.excused = thread.doing == "executing" and not here

    def executing(self, event, cpu):
        """The number of the thread that executes where the event was recorded, or None."""
        return event.header if event.header is not None else cpu.running[1] if cpu.running else None

    def cause(self, event, cpu):
        """Whether an interrupt wakes, or a thread that executes; None where the record doesn't show it."""
        if cpu.expiring or cpu.hard or cpu.soft:
            return True
        if event.flags is not None and len(event.flags) > 2:
            if event.flags[2] in "hHsZz":
                return True
            known = event.flags[2] == "."
        elif cpu.within:
            return True
        else:
            known = self.recorded(EXPIRE) and self.executing(event, cpu) is not None
        if self.executing(event, cpu) == 0 or cpu.running and OF_INTERRUPTS.match(cpu.running[0]):
            return True
        return False if known else None

    def arrives(self, event, cpu, thread, first):
        """The next job of a thread. The one before, if it didn't sleep, ends now, or where it executed last."""
        due, ready = self.due(event, cpu)
        arrival = due
        if thread.doing == "executing":
            self.cut(cpu if thread.cpu is None else self.cpu(thread.cpu), event.time)
            finish = event.time
        else:
            finish = thread.out
        before = thread.job
        if before is not None:
            if thread.doing != "asleep":
                before.finish = finish
            before.closed = True
            arrival = max(arrival, before.arrival)
        if thread.doing == "asleep":
            thread.doing = "ready"
        if self.output.written is not None and arrival < self.output.written:
            text = f"{thread.task} was due before jobs that are written: taken to arrive with them"
            note(("early", thread.task), event.line, text)
            arrival = self.output.written
        if arrival < first:
            thread.job = None  # (it arrived before the record)
        else:
            thread.job = Job(event.line, thread.task, arrival, ready if arrival == due else None)
            self.output.open(thread.job)
        if self.output.first is not None:
            self.output.close_jobs()

    def due(self, event, cpu):
        """When a job arrives, and when it becomes ready: None where the record doesn't show when its timer was due."""
        if not cpu.expiring or cpu.hard and cpu.hard[-1][0] > cpu.expiring[-1][3]:
            return event.time, None
        timer, started, (time, now), line = cpu.expiring[-1]
        if self.fired.get(timer, line) != line:
            refuse(event.line, "a timer expires a second time, and wasn't set between: events are lost")
        if self.starts_known:
            self.fired[timer] = line
        if started is None:
            return event.time, None
        arrival = min(time - (now - started[0]), event.time)
        return arrival, arrival if arrival <= started[1] else event.time

    def moved(self, event):
        found = MOVED.fullmatch(event.rest)
        if not found:
            event.unread()
        comm, pid, prio, origin, target = found.groups()
        thread = self.thread(event, (comm, int(pid), int(prio)))
        if thread is not None and thread.cpu is not None and int(target) != thread.cpu:
            refuse(event.line, f"{thread.task} is moved from processor {thread.cpu} to {target}")

    # -- Timers and interrupts.

    def timer(self, event):
        words = dict(WORD.findall(event.rest))
        cpu = self.cpu(event.cpu)
        try:
            timer = words["hrtimer"]
            if event.name == "hrtimer_start":
                self.starts(event, timer, int(words["softexpires"]), words.get("was_armed") == "1")
            elif event.name == "hrtimer_cancel":
                self.cancelled(timer)
            elif event.name == "hrtimer_expire_entry":
                self.expires(event, cpu, timer, int(words["now"]))
            else:
                self.expired(event, cpu, timer)
        except (KeyError, ValueError):
            event.unread()

    def starts(self, event, timer, due, again):
        """A timer is set. A task's own was set before, and has expired or was cancelled, unless the event says so."""
        self.starts_known = True
        own = self.executing(event, self.cpu(event.cpu)) in self.threads
        old = self.timers.get(timer)
        if own and not again and old is not None and old[2]:
            refuse(event.line, f"a timer is set that was set at line {old[3]} and hasn't expired: events are lost")
        self.timers[timer] = due, event.time, own and self.recorded(EXPIRE), event.line
        self.fired.pop(timer, None)

    def cancelled(self, timer):
        """It isn't set any more, or it expires: older kernels trace this in front of each expiry, too."""
        old = self.timers.pop(timer, None)
        if old is not None and old[2] is not None:
            self.timers[timer] = old[0], old[1], None, old[3]

    def expires(self, event, cpu, timer, now):
        """A timer expires. Of those that expire in one interrupt the clock was read for the first."""
        if cpu.clock is None or cpu.clock[1] != now:
            cpu.clock = event.time, now
        due = self.timers.pop(timer, None)
        if due is not None:
            plain, self.plain = self.plain, due[2] is not None
            if self.plain and now < due[0]:
                refuse(event.line, f"a timer expires before it is due, as set at line {due[3]}")
            if not self.plain and (plain or now < due[0]):
                due = None  # (it was set unseen)
        if self.recorded(EXPIRE):
            cpu.timed = True
            cpu.expiring.append((timer, due, cpu.clock, event.line))

    def expired(self, event, cpu, timer):
        """It has expired. The first one of a processor may be without its begin."""
        if not cpu.timed:
            self.ends_within(cpu)
        elif not (cpu.expiring and cpu.expiring.pop()[0] == timer):
            self.gap(event, "the end of a timer that isn't expiring")
            cpu = self.cpu(event.cpu)
        cpu.timed = self.exits[EXPIRE] = True

    def ends_within(self, cpu):
        """What began before the record ends."""
        cpu.within = cpu.within and cpu.within - 1

    def interrupt(self, event):
        """The entry or the exit of an interrupt."""
        cpu, (kind, end) = self.cpu(event.cpu), event.name.rsplit("_", 1)
        stack = cpu.soft if kind == "softirq" else cpu.hard
        if end == "entry":
            name = self.interrupt_name(event, kind)
            if self.recorded(kind):
                self.cut(cpu, event.time)
                stack.append((event.line, name, kind))
            return
        if not stack:
            if self.exits.get(kind) and self.node == event.cpu:
                note(("exit", kind), event.line, f"the exit of {kind}, whose entry isn't in the record")
            self.exits[kind] = True
            self.ends_within(cpu)
            return
        if stack[-1][2] != kind:
            text = f"the exit of {kind} in the interrupt {stack[-1][1]} of line {stack[-1][0]}: events are lost"
            refuse(event.line, text)
        self.cut(cpu, event.time)
        stack.pop()

    def interrupt_name(self, event, kind):
        if kind == "softirq":
            found = re.search(r"action=(\w+)", event.rest)
            return spelled(f"softirq-{found.group(1) if found else ''}")
        if kind != "irq_handler":
            return spelled(f"irq-{kind}")
        found = re.match(r"irq=(\d+)(?: name=(.*))?", event.rest)
        if not found:
            event.unread()
        return spelled(f"irq-{found.group(1)}-{found.group(2) or ''}".rstrip("-"))

    # -- Lines.

    HANDLERS = {"sched_switch": switch, "sched_waking": waking, "sched_migrate_task": moved}
    HANDLERS.update(dict.fromkeys(TIMERS, timer))
    HANDLERS.update(dict.fromkeys(MARKS, interrupt))

    def take(self, line, text):
        event = event_of(line, text)
        if event is None or event.name.startswith("PERF_RECORD_LOST"):
            self.other_line(line, text)
            return
        handler = self.HANDLERS.get(event.name)
        if self.time is not None and event.time < self.time:
            refuse(line, "a time before that of the line above: sort the record by time")
        self.time = event.time
        self.cpu(event.cpu).concerns(event.time)
        if handler is not None:
            handler(self, event)

    def other_line(self, line, text):
        (lost, number), overwritten = lost_of(text), OVERWRITTEN.match(text)
        if lost:
            self.lost(line, text, number)
        elif overwritten and overwritten.group(1) != overwritten.group(2):
            note("overwritten", line, "the first events of the record were overwritten")
        elif any(f" {name}: " in text or f":{name}: " in text for name in self.HANDLERS):
            refuse(line, f"a line that can't be read: {text.strip()[:60]}")
        elif not PROSE.match(text):
            note("unknown", line, f"isn't understood: {text.strip()[:60]}")

    def lost(self, line, text, cpu):
        """Events are lost; before the first one of a processor, or without a task there, nothing is."""
        text = f"events are lost: {text.strip()[:60]}"
        if self.cpus and cpu is None or self.node is not None and cpu == self.node and self.cpus[cpu].first is not None:
            refuse(line, f"{text}; record again with more memory, or take the lines above it")
        if cpu in self.cpus:
            self.forget(cpu, self.time)
        note("lost", line, text)

    def end(self):
        """The last slice, and the jobs that are left."""
        cpu = self.cpus.get(self.node)
        if cpu is None or cpu.first is None:
            return
        self.cut(cpu, cpu.last)
        self.write_slices(cpu)
        self.output.close_jobs(every=True)


# ---- The program. ----


def read_words():
    parser = argparse.ArgumentParser(description=__doc__.split("\n")[0])
    parser.add_argument("--cpu", type=int)
    parser.add_argument("--ready", action="store_true")
    parser.add_argument("--priorities", action="store_true")
    parser.add_argument("--signalled", action="append", default=[], metavar="TASK")
    parser.add_argument("--jobless", action="store_true")
    parser.add_argument("threads", nargs="+", metavar="THREAD=TASK")
    words = parser.parse_args()
    if not all(re.fullmatch(r".+=[A-Za-z][A-Za-z0-9_-]{0,23}", word, re.DOTALL) for word in words.threads):
        parser.error("each THREAD=TASK has a thread, = and the name of a task")
    tasks = [word.rsplit("=", 1)[1] for word in words.threads]
    if len({*tasks}) < len(tasks):
        parser.error("each task has one thread")
    if not {*words.signalled} <= {*tasks}:
        parser.error("--signalled is of a task that a THREAD=TASK names")
    return words


def noted():
    """All notes, by their lines."""
    for line, sentence, count in sorted(notes.values()):
        more = f" (and {count - 1} more)" if count > 1 else ""
        yield f"note: line {line}: {sentence}{more}"


def say(lines):
    """Says lines on standard error. Where that fails, the trace and the status are all that there is."""
    try:
        sys.stderr.write("".join(f"{line}\n" for line in lines))
        sys.stderr.flush()
    except (AttributeError, OSError):
        pass


def jobless(trace, names):
    """What is missing: the tasks that have no job."""
    missing = [task for task in names.tasks if task not in trace.output.counts]
    if trace.time is None:
        return "the record has no event"
    if missing and not trace.wakings:
        return "the record has no sched_waking"
    return f"no job of {', '.join(missing)} arrives in the record" if missing else None


def run(words):
    """Writes the trace, and says then what is odd or wrong; the status."""
    names, output = Names(words.threads), Output(sys.stdout, words)
    trace = Trace(lines_of(sys.stdin), names, words, output)
    try:
        for line, text in iter(lambda: next(trace.lines, None), None):
            trace.take(line, text)
        trace.end()
        wrong, status = jobless(trace, names), 3
    except Refused as refused:
        wrong, status = str(refused), 4
    except Failed as failed:
        wrong, status = str(failed), 5
    except Exception:
        wrong, status = f"a fault of this program itself\n{traceback.format_exc()}", 1
    said = [*noted(), *names.missing()] if status != 5 else []
    if wrong and status == 3 and words.jobless:
        said.append(f"note: {wrong}")
        wrong = None
    if wrong:
        said.append(f"from_ftrace.py: {wrong}")
        output.put("refused by from_ftrace.py")
    try:
        output.flush()
    except Failed as failed:
        said, wrong, status = [f"from_ftrace.py: {failed}"], True, 5
    say(said)
    return status if wrong else 0


def main():
    """Ends the process itself, for at its end Python would write again what couldn't be written."""
    signal.signal(signal.SIGINT, signal.SIG_DFL)
    if sys.stderr is None:
        sys.stderr = open(os.devnull, "w", encoding="utf-8")
    sys.stderr.reconfigure(errors="backslashreplace")
    if sys.stdin is not None:
        sys.stdin.reconfigure(encoding="utf-8", errors="surrogateescape", newline="\n")
    try:
        status = run(read_words())
    except SystemExit as ended:
        status = help_status() if ended.code == 0 else ended.code
    except OSError:  # (of standard error, on which wrong words are said)
        status = 2
    os._exit(status)


def help_status():
    """The status of --help, once that is written."""
    try:
        Output(sys.stdout, None).flush()
        return 0
    except Failed as failed:
        say([f"from_ftrace.py: {failed}"])
        return 5


if __name__ == "__main__":
    main()
