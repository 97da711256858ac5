`desk worst SET` prints the worst case of a task as a release list, for `desk simulate` and `desk draw`: of a set with an
order the task of least slack in the best one, the highest of equals; of another set the highest task that misses its
deadline in an order that decides, whose settings stand in front.

c has no slack, a 1000, b 9000. c is ready with those above it, each of which comes again as soon as it may. Below a
deadline of 19000 c misses it:

  $ desk worst examples/three-tasks.toml
  # c 20000 of 20000
  until 20000
  0 c
  0 a
  0 b
  7000 a
  12000 b
  14000 a
  $ desk worst examples/three-tasks.toml | desk simulate examples/three-tasks.toml - --tasks
  task c 1 20000 20000
  task a 3 6000 6000
  task b 2 3000 3000
  $ desk worst examples/three-tasks-too-tight.toml
  # c misses 19000
  thread c 1
  thread b 2
  thread a 3
  until 20000
  0 c
  0 b
  0 a
  7000 a
  12000 b
  14000 a
  [3]

By deadlines b stands below a:

  $ desk worst examples/three-tasks.toml --prefer deadline
  # c 20000 of 20000
  until 20000
  0 c
  0 b
  0 a
  7000 a
  12000 b
  14000 a

Another task than that of least slack:

  $ desk worst examples/three-tasks.toml --task a
  # a 6000 of 6000
  until 7000
  0 a
  0 b
  $ desk worst --task=b examples/three-tasks.toml
  # b 3000 of 3000
  until 12000
  0 b

hi has a slack of 5000, mid of 13000. lo has executed the first tick of its section when hi is ready, so that 3999 of 4000
are left. They hold up mid, too, below hi:

  $ desk worst examples/shared-lock.toml
  # hi 4999 of 5000
  until 10101
  0 lo
  101 hi
  $ desk worst examples/shared-lock.toml --task mid > mid.releases; cat mid.releases
  # mid 6999 of 7000
  until 20101
  0 lo
  101 mid
  101 hi
  10101 hi
  $ desk simulate examples/shared-lock.toml mid.releases
  0 4100 lo
  4100 5100 hi
  5100 7100 mid
  7100 10101 lo
  10101 11101 hi
  11101 20101 lo
  job lo 0 -
  job mid 101 7100
  job hi 101 5100
  job hi 10101 11101

c and a have no slack, and a is the higher. It is ready as late as its jitter of 1000 allows, when b arrives:

  $ desk worst examples/jitter.toml
  # a 7000 of 7000
  until 7000
  0 a 1000
  1000 b

That first tick may make more than a tick: with it hi, which comes again after 3 ms, goes before lo once more.

  $ cat > again.toml <<END
  > task = [
  >   { name = "hi", weight = 2, period = 3000, deadline = 3000, cost = 1000 },
  >   { name = "lo", weight = 1, period = 9000, deadline = 9000, cost = 1000, section = [{ locks = ["m"], at = 0, len = 500 }] },
  >   { name = "log", period = 90000, deadline = 90000, cost = 1001, section = [{ locks = ["m"], at = 0, len = 1001 }] },
  > ]
  > END
  $ desk admit again.toml
  admitted 3
  1 log 4001
  2 lo 4001
  3 hi 1000
  $ desk worst again.toml --task lo
  # lo 3000 of 4001
  until 9001
  0 log
  1 lo
  1 hi
  3001 hi
  6001 hi

A job of lo ends inside the section, where hi has to wait: it is done within 9000, and the bound, 10000, is not reached. Where
the deadline is between the two, there is no list in which it is missed; the worst there is follows all the same:

  $ cat > inside.toml <<END
  > task = [
  >   { name = "hi", weight = 1, period = 4000, deadline = 4000, cost = 1000, section = [{ locks = ["m"], at = 0, len = 9 }] },
  >   { name = "lo", period = 10000, deadline = 10000, cost = 7000, section = [{ locks = ["m"], at = 4000, len = 3000 }] },
  > ]
  > END
  $ desk worst inside.toml --task lo
  # lo 9000 of 10000
  until 10000
  0 lo
  0 hi
  4000 hi
  8000 hi
  $ sed 's/deadline = 10000/deadline = 9500/' inside.toml | desk worst -
  # lo ends-inside-a-section
  thread lo 1
  thread hi 2
  mutex m 2
  until 9500
  0 lo
  0 hi
  4000 hi
  8000 hi
  [3]
  $ sed 's/deadline = 10000/deadline = 9500/' inside.toml > between.toml; desk worst between.toml | desk simulate between.toml - --tasks
  task lo 1 9000 -
  task hi 2 1000 4000

hi can't wait for 2500 and execute for 2000 within 4400, and is above lo, by the deadlines. lo keeps its own:

  $ desk worst examples/blocked-out.toml
  # hi misses 4400
  thread lo 1
  thread hi 2
  mutex m 2
  until 5500
  0 lo
  1001 hi
  [3]
  $ desk worst examples/blocked-out.toml | grep -v until | grep -v '^[0-9]' | desk judge examples/blocked-out.toml -
  misses hi
  1 lo 14000 of 50000 at 1
  2 hi misses 4400 needs 4500 at 2
  [3]
  $ desk worst examples/blocked-out.toml --task lo
  # lo 14000 of 14000
  thread lo 1
  thread hi 2
  mutex m 2
  until 50000
  0 lo
  0 hi
  10000 hi
  20000 hi
  30000 hi
  40000 hi
  [3]

One tick less than 4500 is what it needs in any list, but not in the analysis:

  $ sed 's/4400/4499/' examples/blocked-out.toml | desk worst -
  # hi within-a-tick
  thread lo 1
  thread hi 2
  mutex m 2
  until 5500
  0 lo
  1001 hi
  [3]

Two that must stand above each other, of which each passes; the one of least rank is put lower:

  $ printf 'task=[{name="a",period=9000,deadline=9000,cost=1,outranks=["b"]},{name="b",period=9000,deadline=9000,cost=1,outranks=["a"]}]' > each.toml
  $ desk worst each.toml
  # a must-outrank b
  thread a 1
  thread b 2
  until 9000
  0 a
  0 b
  [3]
  $ desk worst each.toml --task b
  # b must-outrank a
  thread b 1
  thread a 2
  until 9000
  0 b
  0 a
  [3]

Of two with equal limits the one of least rank is lower:

  $ printf 'task=[{name="a",weight=1,period=9000,deadline=9000,cost=6000},{name="b",period=9000,deadline=9000,cost=6000}]' | desk worst -
  # b misses 9000
  thread b 1
  thread a 2
  until 12000
  0 b
  0 a
  [3]

10,000 jobs of hi come within ten seconds, and with lo it is one too many; a list of none stands there:

  $ printf 'task=[{name="hi",weight=1,period=1000,deadline=1000,cost=1},{name="lo",period=10000000,deadline=10000000,cost=1}]' > many.toml
  $ desk worst many.toml --task lo
  # lo too-many-releases
  until 0
  $ desk worst many.toml --task lo | desk simulate many.toml -
  $ desk worst many.toml
  # hi 1 of 1
  until 1000
  0 hi
  $ sed 's/10000000/9999000/g' many.toml | desk worst - --task lo | wc -l
  10002

hi waits for 2000 and misses its deadline, so that its next job comes before the first is done: below it mid, which would
meet its own, has no run to its end; nor has a mid that doesn't. That far it is shown. lo, the lowest, waits for nobody:

  $ cat > above.toml <<END
  > task = [
  >   { name = "hi", period = 2000, deadline = 2000, cost = 1000, section = [{ locks = ["m"], at = 0, len = 9 }] },
  >   { name = "mid", period = 9000, deadline = 7000, cost = 1000 },
  >   { name = "lo", period = 9000, deadline = 8000, cost = 2000, section = [{ locks = ["m"], at = 0, len = 2000 }] },
  > ]
  > END
  $ desk worst above.toml --task mid
  # mid below-a-miss
  thread lo 1
  thread mid 2
  thread hi 3
  mutex m 3
  until 7001
  0 lo
  1 mid
  1 hi
  2001 hi
  4001 hi
  6001 hi
  [3]
  $ desk worst above.toml --task mid | desk simulate above.toml -
  0 2000 lo
  2000 2001 hi
  job lo 0 2000
  job mid 1 -
  job hi 1 -
  (on standard error) note: the run ends where a job of hi is ready and the one before it isn't done
  $ sed 's/7000/5999/' above.toml | desk worst - --task mid
  # mid below hi
  thread lo 1
  thread mid 2
  thread hi 3
  mutex m 3
  until 6000
  0 lo
  1 mid
  1 hi
  2001 hi
  4001 hi
  [3]
  $ desk worst above.toml
  # hi misses 2000
  thread lo 1
  thread mid 2
  thread hi 3
  mutex m 3
  until 3000
  0 lo
  1 hi
  [3]
  $ desk worst above.toml --task lo
  # lo 5000 of 6000
  thread lo 1
  thread mid 2
  thread hi 3
  mutex m 3
  until 8000
  0 lo
  0 mid
  0 hi
  2000 hi
  4000 hi
  6000 hi
  [3]

No task, and refusals:

  $ desk worst examples/empty-set.toml
  until 0
  $ desk worst examples/empty-set.toml --task a
  refused: NoSuchTask a
  [4]
  $ desk worst examples/three-tasks.toml --task d
  refused: NoSuchTask d
  [4]
  $ desk worst examples/blocked-out.toml --task 4
  refused: NoSuchTask
  [4]
  $ desk worst - --task=a < /dev/null
  refused: NoSuchTask a
  [4]
  $ echo 'x = 1' | desk worst - --task a
  refused: UnknownKey 0 0
  [4]
  $ desk worst absent.toml
  refused: ReadFailed
  [7]
  $ desk worst 2> /dev/null
  [2]

With `--at` the same in an order that settings give, which then stand in front of the list, numbered from 1. In the order of
above each deadline is met, and c has no slack; with c on top a is the highest that misses its deadline, in 3000 + 5000:

  $ desk settings examples/three-tasks.toml | desk worst examples/three-tasks.toml --at -
  # c 20000 of 20000
  thread c 1
  thread a 2
  thread b 3
  until 20000
  0 c
  0 a
  0 b
  7000 a
  12000 b
  14000 a
  $ printf 'thread b 10\nthread a 20\nthread c 30\n' > down
  $ desk worst examples/three-tasks.toml --at down
  # a misses 7000
  thread b 1
  thread a 2
  thread c 3
  until 8000
  0 a
  0 c
  [3]
  $ desk worst examples/three-tasks.toml --at down | desk simulate examples/three-tasks.toml -
  0 5000 c
  5000 8000 a
  job a 0 8000
  job c 0 5000
  $ desk worst examples/three-tasks.toml --at down --task c
  # c 5000 of 5000
  thread b 1
  thread a 2
  thread c 3
  until 20000
  0 c
  [3]

Settings are refused as by `judge`, before the name of a task:

  $ echo 'thread c 1' | desk worst --at=- examples/three-tasks.toml --task d
  refused: MissingTask a
  [4]
  $ desk worst --at=down examples/three-tasks.toml --task d
  refused: NoSuchTask d
  [4]
