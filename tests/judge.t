`desk judge SET SETTINGS` says what becomes of each task at priorities that a node has: lines as `desk settings` prints
them, by any distinct numbers from 1 to 1,000,000, of which a greater one is higher; behind each level it has the number.

What `settings` prints is judged to meet all deadlines, with the responses of `admit`:

  $ desk settings examples/shared-lock.toml | desk judge examples/shared-lock.toml -
  meets 3
  1 lo 27000 of 100000 at 1
  2 mid 7000 of 20000 at 2
  3 hi 5000 of 10000 at 3
  $ for set in three-tasks three-tasks-weighted jitter watchdog own-order fills-its-period blocked-out-repaired demand-of-the-deadline; do desk settings examples/$set.toml | desk judge examples/$set.toml - > judged || echo $?; desk admit examples/$set.toml | sed 1d > admitted; sed '1d; s/ of .*//' judged | cmp - admitted; done

Any numbers, in any order of lines; comments and empty lines are skipped; mutexes may be left out:

  $ printf '# today\nthread hi 90\n\nthread lo 7\nthread mid 8\n' > today
  $ desk judge examples/shared-lock.toml today
  meets 3
  1 lo 27000 of 100000 at 7
  2 mid 7000 of 20000 at 8
  3 hi 5000 of 10000 at 90

An order that doesn't pass:

  $ printf 'thread lo 3\nthread mid 2\nthread hi 1\n' > low
  $ desk judge examples/shared-lock.toml low
  misses mid hi
  1 hi misses 10000 needs 23000 at 1
  2 mid misses 20000 needs 22200 at 2
  3 lo 20200 of 100000 at 3
  [3]

A task that stands below one that it must outrank:

  $ printf 'thread watchdog 1\nthread sensors 2\nthread motion 3\nthread log 4\n' > low
  $ desk judge examples/watchdog.toml low
  misses watchdog sensors motion
  1 watchdog below sensors at 1
  2 sensors misses 20000 needs 38000 at 2
  3 motion misses 10000 needs 33500 at 3
  4 log 30500 of 200000 at 4
  [3]

Refused, each over the whole text before the next:

  $ judge() { printf "$1" | desk judge examples/shared-lock.toml -; }
  $ judge 'thread lo 1\nthread x 0\n'
  refused: BadLine 2
  [4]
  $ judge 'thread lo 1000000\nthread hi 1000001\n'
  refused: BadLine 2
  [4]
  $ judge 'thread lo 1\nthread x 1\nmutex n 1\n'
  refused: UnknownTask 2
  [4]
  $ judge 'thread lo 1\nthread lo 1\nmutex n 1\n'
  refused: UnknownLock 3
  [4]
  $ judge 'mutex m 1\nmutex m 1\nthread lo 1\nthread lo 1\n'
  refused: SameTask 4
  [4]
  $ judge 'mutex m 1\nmutex m 1\nthread lo 1\nthread mid 1\n'
  refused: SameLock 2
  [4]
  $ judge 'thread lo 1\nthread mid 1\n'
  refused: SameNumber 2
  [4]
  $ judge 'thread lo 1\n'
  refused: MissingTask mid
  [4]
  $ judge 'thread lo 1\nthread mid 2\nthread hi 3\nmutex m 2\n'
  refused: WrongCeiling m
  [4]
  $ printf '[[task]]\nname = "a"\nperiod = 9000\ndeadline = 9000\ncost = 9\nsection = [{ locks = ["n", "m"], at = 0, len = 1 }]\n' > a.toml
  $ printf 'thread a 5\nmutex m 5\n' | desk judge a.toml -
  refused: MissingLock n
  [4]

A mutex may stand above the highest user of its lock. Its sections then hold up each thread up to that number, also at it:
lo's 4000 hold up hi, which uses no lock, and at 2 only mid.

  $ cat > raised.toml << END
  > [[task]]
  > name = "hi"
  > weight = 3
  > period = 10000
  > deadline = 4900
  > cost = 1000
  > [[task]]
  > name = "mid"
  > weight = 2
  > period = 20000
  > deadline = 20000
  > cost = 2000
  > section = [{ locks = ["m"], at = 0, len = 500 }]
  > [[task]]
  > name = "lo"
  > weight = 1
  > period = 100000
  > deadline = 100000
  > cost = 20000
  > section = [{ locks = ["m"], at = 100, len = 4000 }]
  > END
  $ raised() { printf "thread lo 10\nthread mid 20\nthread hi 30\nmutex m $1\n"; }
  $ raised 29 | desk judge raised.toml -
  meets 3
  1 lo 27000 of 100000 at 10
  2 mid 7000 of 20000 at 20
  3 hi 1000 of 4900 at 30
  $ for number in 30 99 1000000; do raised $number | desk judge raised.toml -; done | sort | uniq -c | sed 's/^ *//'
  3 1 lo 27000 of 100000 at 10
  3 2 mid 7000 of 20000 at 20
  3 3 hi misses 4900 needs 5000 at 30
  3 misses hi
  $ raised 19 | desk judge raised.toml -
  refused: WrongCeiling m
  [4]
  $ printf 'thread hi 1\nthread mid 2\nthread lo 3\nmutex m 1\n' | desk judge raised.toml - --lower-is-higher | tail -n 1
  3 hi misses 4900 needs 5000 at 1

All else counts by the least ceilings, and so takes no others:

  $ raised 99 > raised
  $ for command in explain limits worst; do desk $command raised.toml --at raised; done
  refused: WrongCeiling m
  refused: WrongCeiling m
  refused: WrongCeiling m
  [4]

Where a smaller number is a higher priority, the highest user of a lock has the smallest number:

  $ printf 'thread hi 1\nthread mid 5\nthread lo 9\nmutex m 1\n' > rtems
  $ desk judge examples/shared-lock.toml rtems --lower-is-higher
  meets 3
  1 lo 27000 of 100000 at 9
  2 mid 7000 of 20000 at 5
  3 hi 5000 of 10000 at 1
  $ desk settings examples/shared-lock.toml | desk judge examples/shared-lock.toml - --lower-is-higher 2> /dev/null
  refused: WrongCeiling m
  [4]
  $ printf 'thread hi 1000000\nthread mid 2\nthread lo 1\n' | desk judge examples/shared-lock.toml - --lower-is-higher | head -n 1
  misses mid hi
  $ printf 'thread hi 0\nthread mid 2\nthread lo 3\n' | desk judge examples/shared-lock.toml - --lower-is-higher 2> /dev/null
  refused: BadLine 1
  [4]
  $ printf 'thread hi 1\nthread mid 1\nthread lo 3\n' | desk judge examples/shared-lock.toml - --lower-is-higher 2> /dev/null
  refused: SameNumber 2
  [4]
