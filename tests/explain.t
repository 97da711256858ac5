`desk explain SET` prints what each bound of the best order is made of; or a minimal conflict, with what each of its tasks
needs, and what becomes of each task in an order that passes where any does, with what it needs at least where it misses its
deadline. Every part stands once, and they add up.

  $ desk explain examples/shared-lock.toml
  admitted 3
  1 lo 27000 of 100000
    cost 20000
    above hi 3 jobs 3000
    above mid 2 jobs 4000
  2 mid 7000 of 20000
    cost 2000
    blocked 4000 by lo section 1 lock m, ceiling by hi
    above hi 1 jobs 1000
  3 hi 5000 of 10000
    cost 1000
    blocked 4000 by lo section 1 lock m
  load 400000
  $ desk explain examples/blocked-out.toml
  infeasible hi
  conflict hi
  hi 4500 of 4400
    cost 2000
    blocked 2500 by lo section 1 lock m
  load 400000
  1 lo 14000 of 50000
  2 hi misses 4400 needs 4500
    cost 2000
    blocked 2500 by lo section 1 lock m
  [3]

Above a task that doesn't use the lock two do: the higher of them is named, which is another one with the other on top.
Alone the lower is named:

  $ task() { printf '[[task]]\nname = "%s"\nweight = %s\nperiod = 10000\ndeadline = 10000\ncost = 500\n' $1 $2; shift 2; for lock; do printf '[[task.section]]\nlocks = ["%s"]\nlen = 100\n' $lock; done; }
  $ { task log 0 bus; task mid 1 pose; task arm 2 pose bus; task motor 3 bus; } > users.toml
  $ desk explain users.toml --task mid
  admitted 4
  2 mid 1600 of 10000
    cost 500
    blocked 100 by log section 1 lock bus, ceiling by motor
    above motor 1 jobs 500
    above arm 1 jobs 500
  $ printf 'thread log 1\nthread mid 2\nthread motor 3\nthread arm 4\n' | desk explain users.toml --at - --task mid
  meets 4
  2 mid 1600 of 10000
    cost 500
    blocked 100 by log section 1 lock bus, ceiling by arm
    above arm 1 jobs 500
    above motor 1 jobs 500
  $ { task log 0 bus; task mid 1 pose; task arm 2 pose bus; } | desk explain - --task mid 2> notes
  admitted 3
  2 mid 1100 of 10000
    cost 500
    blocked 100 by log section 1 lock bus, ceiling by arm
    above arm 1 jobs 500

Of a conflict's task, too:

  $ { task log 0 bus | sed 's/len = 100/len = 400/'; task mid 1 | sed 's/^deadline.*/deadline = 1300/'; task motor 2 bus | sed 's/^deadline.*/deadline = 900/'; } > short.toml
  $ desk explain short.toml 2> notes | head -n 10
  infeasible mid motor
  conflict mid motor
  mid 1400 of 1300
    cost 500
    blocked 400 by log section 1 lock bus, ceiling by motor
    above motor 1 jobs 500
  motor 1400 of 900
    cost 500
    blocked 400 by log section 1 lock bus
    above mid 1 jobs 500

No task, and a set that is refused:

  $ desk explain examples/empty-set.toml
  admitted 0
  load 0
  $ echo 'task = [{ name = "a", period = 10000, deadline = 10000, cost = 0 }]' | desk explain -
  refused: CostZero 1
  [4]

One of two tasks that must stand above each other can't be left out; a third is none of the conflict:

  $ for name in a b c; do printf '[[task]]\nname = "%s"\nperiod = 10000\ndeadline = 10000\ncost = 100\n' $name; case $name in a) echo 'outranks = ["b"]';; b) echo 'outranks = ["a"]';; esac; done > circle.toml
  $ desk explain circle.toml
  infeasible a b
  conflict a b
  a must be above b
  b must be above a
  load 30000
  1 c 300 of 10000
  2 a below b
  3 b 100 of 10000
  [3]

Of a conflict of more than three tasks the order that decides comes first, and the conflict in a line. What each of its tasks
needs stands there with `--all`, as of fewer:

  $ four() { for name in a b c d; do printf '[[task]]\nname = "%s"\nperiod = 10000\ndeadline = 10000\ncost = %s\n' $name $1; done; }
  $ four 3000 > four.toml
  $ desk explain four.toml 2> notes
  infeasible a b c d
  1 a misses 10000 needs 12000
  2 b 9000 of 10000
  3 c 6000 of 10000
  4 d 3000 of 10000
  conflict a b c d
  load 1200000
  [3]
  $ desk explain four.toml --all 2> notes | head -n 7
  infeasible a b c d
  conflict a b c d
  a 12000 of 10000
    cost 3000
    above d 1 jobs 3000
    above c 1 jobs 3000
    above b 1 jobs 3000
  $ desk explain --all four.toml 2> notes | tail -n 9
  load 1200000
  1 a misses 10000 needs 12000
    cost 3000
    above d 1 jobs 3000
    above c 1 jobs 3000
    above b 1 jobs 3000
  2 b 9000 of 10000
  3 c 6000 of 10000
  4 d 3000 of 10000
  $ desk explain four.toml --task a 2> notes | sed -n 3p
  a 12000 of 10000
  $ four 4000 | head -n 15 > three.toml; desk explain three.toml --all > all 2> notes; desk explain three.toml 2> notes | cmp - all

The jitter of a task is a part of its own response; that of a task above brings a job more:

  $ desk admit examples/jitter.toml
  admitted 3
  1 c 20000
  2 a 7000
  3 b 3000
  $ desk explain examples/jitter.toml | grep -A 3 '^2 a'
  2 a 7000 of 7000
    cost 3000
    jitter 1000
    above b 1 jobs 3000

With `--at` the same of an order that settings give, passing or not. With c on top a comes after 5000, so that 3000 more are
past its 7000, and b after all of both, with a second job of a:

  $ printf 'thread b 10\nthread a 20\nthread c 30\n' > down
  $ desk explain examples/three-tasks.toml --at down --all > all; desk explain examples/three-tasks.toml --at down | cmp - all
  $ desk explain examples/three-tasks.toml --at down
  misses a b
  1 b misses 12000 needs 14000
    cost 3000
    above c 1 jobs 5000
    above a 2 jobs 6000
  2 a misses 7000 needs 8000
    cost 3000
    above c 1 jobs 5000
  3 c 5000 of 20000
    cost 5000
  load 928572
  [3]
  $ desk explain examples/three-tasks.toml --at down --task c
  misses a b
  3 c 5000 of 20000
    cost 5000
  [3]
  $ desk explain --task=a examples/three-tasks.toml --at=- < down
  misses a b
  2 a misses 7000 needs 8000
    cost 3000
    above c 1 jobs 5000
  [3]

With mid on top, which no section then blocks:

  $ printf 'thread lo 1\nthread hi 2\nthread mid 3\n' > mid-on-top
  $ desk explain examples/shared-lock.toml --at mid-on-top
  meets 3
  1 lo 27000 of 100000
    cost 20000
    above mid 2 jobs 4000
    above hi 3 jobs 3000
  2 hi 7000 of 10000
    cost 1000
    blocked 4000 by lo section 1 lock m
    above mid 1 jobs 2000
  3 mid 2000 of 20000
    cost 2000
  load 400000
  $ printf 'thread watchdog 1\nthread log 2\nthread sensors 3\nthread motion 4\n' | desk explain examples/watchdog.toml --at - --task watchdog
  misses watchdog
  1 watchdog below sensors
  [3]

In the best order each level is as without settings:

  $ for set in examples/shared-lock.toml examples/jitter.toml examples/watchdog.toml examples/robot-mended.toml; do desk explain $set | tail -n +2 > best; desk settings $set | desk explain $set --at - | tail -n +2 | cmp - best; done

Settings are refused as by `judge`, before the name of a task:

  $ echo 'thread c 1' | desk explain --at=- examples/three-tasks.toml --task d
  refused: MissingTask a
  [4]
  $ desk explain --at=down examples/three-tasks.toml --task d
  refused: NoSuchTask d
  [4]
