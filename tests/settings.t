`desk settings SET` prints for an admitted set the level of each task's thread, the lowest first, and then the ceiling of each
lock's mutex in the order of first sight: the level of its highest user.

  $ desk settings examples/shared-lock.toml
  thread lo 1
  thread mid 2
  thread hi 3
  mutex m 3

Tasks by rank, sections in order, locks as written; a lock of one user has that user's level:

  $ task() { echo "[[task]]"; echo "name = '$1'"; echo "weight = $2"; echo "period = 10000"; echo "deadline = 10000"
  >   echo "cost = 100"; }
  $ { task high 3; echo 'section = [{ locks = ["q", "m"], at = 0, len = 10 }, { locks = ["p"], at = 10, len = 10 }]'
  >   task low 1; echo 'section = [{ locks = ["r", "p"], at = 0, len = 10 }]'
  >   task none 2; } | desk settings -
  thread low 1
  thread none 2
  thread high 3
  mutex r 1
  mutex p 3
  mutex q 3
  mutex m 3
  (on standard error) note: lock r has one user, low
  (on standard error) note: lock q has one user, high
  (on standard error) note: lock m has one user, high

Without locks there is no mutex, and the empty set has nothing to set:

  $ desk settings examples/three-tasks.toml
  thread c 1
  thread a 2
  thread b 3
  $ desk settings examples/empty-set.toml

An infeasible set prints as in `admit`, and so does a refused one:

  $ desk settings examples/blocked-out.toml
  infeasible hi
  [3]
  $ echo x = 1 | desk settings -
  refused: UnknownKey 0 0
  [4]
  $ desk settings a b 2> /dev/null
  [2]

`--base` says which priority level 1 has, with or without `--keep`; from 1 it changes nothing:

  $ desk settings examples/shared-lock.toml --base 80
  thread lo 80
  thread mid 81
  thread hi 82
  mutex m 82
  $ printf 'thread b 10\nthread a 20\n' | desk settings examples/three-tasks.toml --keep - --base 999969
  thread c 999969
  thread b 999970
  thread a 999971
  # moved b 10 999970
  # moved a 20 999971
  (on standard error) note: the highest thread is above 99, the most that Linux has for SCHED_FIFO
  $ desk settings examples/watchdog.toml > levels
  $ desk settings --base=1 examples/watchdog.toml | cmp - levels
  $ desk settings examples/watchdog.toml --base 40 | desk judge examples/watchdog.toml - > judged
  $ desk judge examples/watchdog.toml levels | awk 'NR > 1 { $NF += 39 } 1' | cmp - judged
  $ for base in 0 999970 -1 x ''; do desk settings examples/shared-lock.toml --base "$base" 2> /dev/null || echo $?; done
  2
  2
  2
  2
  2

`--room` leaves numbers free beside each, as many as fit below 99 or, with a greater base, below 1,000,000:

  $ desk settings examples/shared-lock.toml --room 9
  thread lo 10
  thread mid 20
  thread hi 30
  mutex m 30
  $ desk settings examples/shared-lock.toml --room=30 --base 50
  thread lo 61
  thread mid 74
  thread hi 87
  mutex m 87
  $ desk settings examples/shared-lock.toml --room 1000000 --base 98 2> /dev/null
  thread lo 250073
  thread mid 500049
  thread hi 750025
  mutex m 750025
  $ desk settings examples/watchdog.toml --room 0 | cmp - levels
  $ desk settings examples/shared-lock.toml --room 9 | desk judge examples/shared-lock.toml - | head -n 1
  meets 3
  $ for room in 1000001 -1 x ''; do desk settings examples/shared-lock.toml --room "$room" 2> /dev/null || echo $?; done
  2
  2
  2
  2

`--keep` names the settings of a node whose order stays, as far as the set has its tasks; the best order is another. Numbers
stay, too:

  $ printf 'thread b 10\nthread a 20\n' | desk settings examples/three-tasks.toml --keep -
  thread c 9
  thread b 10
  thread a 20
  $ printf 'thread b 3\nthread a 5\nthread gone 4\n' > node
  $ desk settings --keep=node examples/jitter.toml
  thread c 2
  thread b 3
  thread a 5

A new task gets a number between, in the middle of a gap with room for that; mutexes go with their users:

  $ between() { printf "thread lo $1\nthread hi $2\n" | desk settings examples/shared-lock.toml --keep - $3 $4; }
  $ between 50 60
  thread lo 50
  thread mid 51
  thread hi 60
  mutex m 60
  $ between 50 60 --room 3
  thread lo 50
  thread mid 54
  thread hi 60
  mutex m 60
  $ between 50 60 --room 50
  thread lo 50
  thread mid 55
  thread hi 60
  mutex m 60

Where there is no gap as few as possible move, and each is named; none goes above 99, but where one is already:

  $ between 50 51
  thread lo 50
  thread mid 51
  thread hi 52
  mutex m 52
  # moved hi 51 52
  $ between 98 99
  thread lo 97
  thread mid 98
  thread hi 99
  mutex m 99
  # moved lo 98 97
  $ between 99 100
  thread lo 99
  thread mid 100
  thread hi 101
  mutex m 101
  # moved hi 100 101
  $ between 60 61 --room 4
  thread lo 60
  thread mid 65
  thread hi 70
  mutex m 70
  # moved hi 61 70
  $ between 50 51 | desk judge examples/shared-lock.toml - | head -n 1
  meets 3
  $ between 1 2 --base 40
  thread lo 40
  thread mid 41
  thread hi 42
  mutex m 42
  # moved lo 1 40
  # moved hi 2 42

Settings of other tasks alone, of mutexes alone and of nothing keep nothing; the settings of the best order keep it:

  $ printf 'thread x 3\nmutex none 7\nmutex none 8\n' | desk settings examples/shared-lock.toml --keep -
  thread lo 1
  thread mid 2
  thread hi 3
  mutex m 3
  $ desk settings examples/watchdog.toml > node
  $ desk settings examples/watchdog.toml --keep node | cmp - node
  $ desk settings examples/watchdog.toml --keep /dev/null | cmp - node

Where no order that passes keeps it, the first pair that has to change, from the lowest up, also with one task between in
the settings that the set doesn't have:

  $ printf 'thread b 30\nthread gone 17\nthread a 15\nthread c 20\n' | desk settings examples/three-tasks.toml --keep -
  parted a c
  (on standard error) note: with c above a, and those below as they are, no order passes: leave out the line of one, and that one may move
  [3]
  $ printf 'thread hi 3\nthread lo 5\n' | desk settings examples/shared-lock.toml --keep -
  parted hi lo
  (on standard error) note: with lo above hi, and those below as they are, no order passes: leave out the line of one, and that one may move
  [3]

Where no order passes at all the set is infeasible, whatever it is to keep:

  $ desk settings examples/blocked-out.toml --keep /dev/null
  infeasible hi
  [3]

A line that is none, a thread twice and a number twice are refused; the set is read first, and standard input once:

  $ printf 'thread a 1\nthread b\n' | desk settings examples/three-tasks.toml --keep - 2> /dev/null
  refused: BadLine 2
  [4]
  $ printf 'thread a 1\nthread gone 2\nthread gone 3\n' | desk settings examples/three-tasks.toml --keep - 2> /dev/null
  refused: SameTask 3
  [4]
  $ printf 'thread a 1\nthread gone 1\n' | desk settings examples/three-tasks.toml --keep - 2> /dev/null
  refused: SameNumber 2
  [4]
  $ echo x = 1 | desk settings - --keep missing 2> /dev/null
  refused: ReadFailed
  [7]
  $ desk settings - --keep - 2>&1 < examples/three-tasks.toml
  standard input named twice
  [2]
  $ desk settings examples/three-tasks.toml --keep 2> /dev/null
  [2]
  $ desk admit examples/three-tasks.toml --keep node 2> /dev/null
  [2]
