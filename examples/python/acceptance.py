#!/usr/bin/env python3
"""How many random task sets are admitted, over their utilisation: with and without locks, with and
without jitter, in the best order and in that by deadline. Writes a picture and its numbers.

    python3 examples/python/acceptance.py [--sets N] [--tasks N] [--jitter SHARE] [--seed N]
        [--jobs N | --dask ADDRESS] [--out acceptance.svg]

Utilisations are split by UUniFast (Bini and Buttazzo, Measuring the performance of schedulability
tests, 2005), periods are log-uniform from 10 ms to 1 s, a deadline is uniform from half the period,
or from the cost if that is more, to the period. With jitter, one task in two has some, uniform up to
SHARE of what its deadline leaves past its cost. With locks, one task in two has a critical section
of 2 to 20 % of its cost, with one of three mutexes.

Without jitter the order by deadline is as good as the best one (Leung and Whitehead 1982; with locks
Bletsas and Audsley 2006). With jitter that by deadline less jitter is (Zuhily and Burns 2007), and
that by deadline isn't. So with `--jitter 0` all curves of one colour agree, which tests this program.

The same seed gives the same sets, whoever works on them: so many processes of this machine, or the
workers of a Dask cluster, where `import desk` has to work (python/ on PYTHONPATH and DESK_LIBRARY,
or `pip install ./python`):

    dask scheduler --host ADDRESS &
    dask worker tcp://ADDRESS:8786 &
    python3 examples/python/acceptance.py --dask tcp://ADDRESS:8786 --sets 1000000
"""
from __future__ import annotations

import argparse
import csv
import math
import os
import random
import sys
import time
from collections import Counter
from concurrent.futures import Executor, ProcessPoolExecutor, as_completed
from dataclasses import replace
from pathlib import Path

sys.path.insert(0, str(Path(__file__).resolve().parents[2] / "python"))
import desk  # noqa: E402

UTILISATIONS = [k / 40 for k in range(20, 41)]
# Whether there are locks, whether there is jitter, and the order.
CURVES = [
    (locks, *rest)
    for locks in (False, True)
    for rest in ((False, "best"), (True, "best"), (True, "deadline"))
]
Curve = tuple[bool, bool, str]
Work = tuple[int, int, int, int, float]


def uunifast(source: random.Random, count: int, utilisation: float) -> list[float]:
    """Shares of the utilisation, uniform over all splits."""
    shares, rest = [], utilisation
    for k in range(1, count):
        less = rest * source.random() ** (1 / (count - k))
        shares.append(rest - less)
        rest = less
    return [*shares, rest]


def random_tasks(
    source: random.Random, count: int, utilisation: float, jitter: float
) -> list[desk.Task]:
    tasks = []
    for k, share in enumerate(uunifast(source, count, utilisation)):
        period = round(math.exp(source.uniform(math.log(10_000), math.log(1_000_000))))
        cost = min(max(round(share * period), 1), period)
        deadline = source.randint(max(cost, period // 2), period)
        late = round((deadline - cost) * jitter * source.random()) if source.random() < 0.5 else 0
        tasks.append(desk.Task(f"t{k}", period, deadline, cost, jitter=late))
    return tasks


def with_locks(source: random.Random, tasks: list[desk.Task]) -> list[desk.Task]:
    out = []
    for it in tasks:
        length = round(it.cost * source.uniform(0.02, 0.2))
        has = source.random() < 0.5 and length > 0
        at, lock = source.randint(0, it.cost - length), f"m{source.randrange(3)}"
        sections = [desk.Section([lock], at, length)] if has else []
        out.append(replace(it, sections=sections))
    return out


def by_deadline(tasks: list[desk.Task]) -> str:
    """Settings in which a shorter deadline stands higher."""
    rows = sorted(tasks, key=lambda it: (-it.deadline, it.name))
    return "".join(f"thread {it.name} {k}\n" for k, it in enumerate(rows, 1))


def tried(words: Work) -> tuple[int, Counter[Curve]]:
    """The curves on which the set of this number at this utilisation counts."""
    seed, point, number, count, jitter = words
    source = random.Random(f"{seed} {point} {number}")
    plain = random_tasks(source, count, UTILISATIONS[point], jitter)
    found: Counter[Curve] = Counter()
    for tasks, locks in ((plain, False), (with_locks(source, plain), True)):
        text = desk.toml(tasks)
        found[locks, False, "best"] += bool(desk.admit([replace(it, jitter=0) for it in tasks]))
        found[locks, True, "best"] += bool(desk.admit(text))
        found[locks, True, "deadline"] += bool(desk.judge(text, by_deadline(tasks)))
    return point, found


def all_tried(some: list[Work]) -> list[tuple[int, Counter[Curve]]]:
    return [tried(it) for it in some]


def show(done: int, count: int, since: float) -> None:
    """Says on a terminal how far the work is."""
    if sys.stderr.isatty():
        end = "\n" if done == count else ""
        print(f"\r{done:,} of {count:,} sets, {since:.1f} s", end=end, file=sys.stderr, flush=True)


def run(
    executor: Executor, sets: int, count: int, jitter: float, seed: int
) -> list[dict[Curve, float]]:
    """The shares of each curve at each utilisation."""
    each = max(sets // len(UTILISATIONS), 1)
    work = [(seed, point, k, count, jitter) for k in range(each) for point in range(len(UTILISATIONS))]
    totals: list[Counter[Curve]] = [Counter() for _ in UTILISATIONS]
    begun, done = time.monotonic(), 0
    futures = [executor.submit(all_tried, work[k : k + 50]) for k in range(0, len(work), 50)]
    for future in as_completed(futures):
        for point, found in future.result():
            totals[point].update(found)
            done += 1
        show(done, len(work), time.monotonic() - begun)
    return [{key: value / each for key, value in it.items()} for it in totals]


def executor_of(options: argparse.Namespace) -> Executor:
    """Whatever takes work by `concurrent.futures`: processes, or a Dask cluster."""
    if options.dask is None:
        return ProcessPoolExecutor(options.jobs)
    from distributed import Client  # Debian's python3-distributed

    return Client(options.dask).get_executor()


STYLE = """
text{font:13px sans-serif;fill:#333}.s{font-size:12px;fill:#555}
.t{font-weight:bold;font-size:16px;fill:#111}.h{font-weight:bold}
.p{fill:#fff}.g{stroke:#e3e3e3}.l{fill:none;stroke-width:2.2}.m{stroke:#fff;stroke-width:1}
.c0{stroke:#0072b2}.f0{fill:#0072b2}.c1{stroke:#c24a00}.f1{fill:#c24a00}
.k0{stroke-width:1.2;opacity:.75}.k2{stroke-dasharray:1 5;stroke-linecap:round}
@media(prefers-color-scheme:dark){text{fill:#c3c8cf}.t,.h{fill:#f2f4f7}.s{fill:#9aa3ad}
.p{fill:#14181d}.g{stroke:#2c333c}.m{stroke:#14181d}
.c0{stroke:#6cb6ff}.f0{fill:#6cb6ff}.c1{stroke:#ff9b5e}.f1{fill:#ff9b5e}}
"""


def label(curve: Curve) -> str:
    locks, jitter, order = curve
    said = "with jitter" if jitter else "without jitter"
    said += ", by deadline" if order == "deadline" else ""
    return f"{'locks' if locks else 'no locks'}: {said}"


def mark(curve: Curve, x: float, y: float) -> str:
    """A point of a curve: a disc without locks, a box with them."""
    if curve[0]:
        return f'<rect class="m f1" x="{x - 3.6:.1f}" y="{y - 3.6:.1f}" width="7.2" height="7.2"/>'
    return f'<circle class="m f0" cx="{x}" cy="{y}" r="4"/>'


def picture(ratios: list[dict[Curve, float]], note: str) -> str:
    """The curves as an SVG document: locks by colour and mark, jitter and the order by the line."""
    width, height, left, top, wide, high = 890, 470, 70, 80, 560, 320
    lowest, highest = UTILISATIONS[0], UTILISATIONS[-1]

    def x(utilisation: float) -> float:
        return round(left + (utilisation - lowest) / (highest - lowest) * wide, 1)

    def y(ratio: float) -> float:
        return round(top + (1 - ratio) * high, 1)

    size = f'width="{width}" height="{height}" viewBox="0 0 {width} {height}"'
    out = [
        f'<svg xmlns="http://www.w3.org/2000/svg" {size}>',
        f"<title>Acceptance ratio over utilisation</title><style>{STYLE}</style>",
        '<rect class="p" width="100%" height="100%"/>',
        '<text class="t" x="20" y="30">Random task sets admitted, over their utilisation</text>',
        f'<text class="s" x="20" y="52">{note}</text>',
    ]
    for k in range(0, 11, 2):
        out.append(f'<path class="g" d="M{left} {y(k / 10)}H{left + wide}"/>')
        out.append(f'<text x="{left - 10}" y="{y(k / 10) + 4}" text-anchor="end">{10 * k} %</text>')
    for it in UTILISATIONS[::4]:
        out.append(f'<path class="g" d="M{x(it)} {top}v{high}"/>')
        out.append(f'<text x="{x(it)}" y="{top + high + 20}" text-anchor="middle">{it:.1f}</text>')
    middle = f'x="{left + wide / 2}" y="{top + high + 44}" text-anchor="middle"'
    out.append(f"<text {middle}>utilisation</text>")
    here, far = top + 10, left + wide + 30
    for k, curve in enumerate(CURVES):
        kind = f'class="l c{int(curve[0])} k{k % 3}"'
        points = [(x(u), y(it[curve])) for u, it in zip(UTILISATIONS, ratios)]
        line = "L".join(f"{one} {other}" for one, other in points)
        out.append(f'<path {kind} d="M{line}"/>')
        head, _, said = label(curve).partition(": ")
        if k % 3 == 0:
            out.append(f'<text class="h" x="{far}" y="{here + 4}">{head}</text>')
            here += 26
        out.append(f'<path {kind} d="M{far} {here}h40"/>')
        out.append(f'<text x="{far + 52}" y="{here + 4}">{said}</text>')
        if k % 3 == 1:
            out += [mark(curve, *it) for it in [*points, (far + 20, here)]]
        here += 36 if k % 3 == 2 else 26
    return "\n".join([*out, "</svg>\n"])


def main() -> None:
    parser = argparse.ArgumentParser(description=__doc__.splitlines()[0])
    parser.add_argument("--sets", type=int, default=10_000)
    parser.add_argument("--tasks", type=int, default=12)
    parser.add_argument("--jitter", type=float, default=0.5)
    parser.add_argument("--seed", type=int, default=1)
    parser.add_argument("--jobs", type=int, default=os.cpu_count())
    parser.add_argument("--dask", metavar="ADDRESS", help="the scheduler of a Dask cluster")
    parser.add_argument("--out", type=Path, default=Path("acceptance.svg"))
    options = parser.parse_args()
    begun = time.monotonic()
    with executor_of(options) as executor:
        ratios = run(executor, options.sets, options.tasks, options.jitter, options.seed)
    each = max(options.sets // len(UTILISATIONS), 1)
    note = f"{each * len(UTILISATIONS):,} sets of {options.tasks} tasks, {each} at each "
    note += f"utilisation, in the best order if not by deadline; jitter {options.jitter:g}, "
    note += f"seed {options.seed}"
    options.out.write_text(picture(ratios, note))
    with options.out.with_suffix(".csv").open("w", newline="") as file:
        rows = csv.writer(file)
        rows.writerow(["utilisation", *(label(it) for it in CURVES)])
        for utilisation, ratio in zip(UTILISATIONS, ratios):
            rows.writerow([utilisation, *(round(ratio[curve], 4) for curve in CURVES)])
    written = f"{options.out} and {options.out.with_suffix('.csv')}"
    print(f"{written}: {note}, {time.monotonic() - begun:.1f} s")


if __name__ == "__main__":
    main()
