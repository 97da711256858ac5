With `--sort slack` the levels of `desk admit`, `explain` and `judge` stand by what their tasks' responses leave of the
deadlines, the least first: of these three 73000, 13000 and 5000.

  $ desk admit examples/shared-lock.toml
  admitted 3
  1 lo 27000
  2 mid 7000
  3 hi 5000
  $ desk admit examples/shared-lock.toml --sort slack
  admitted 3
  3 hi 5000
  2 mid 7000
  1 lo 27000
  $ desk explain --sort=slack examples/shared-lock.toml
  admitted 3
  3 hi 5000 of 10000
    cost 1000
    blocked 4000 by lo section 1 lock m
  2 mid 7000 of 20000
    cost 2000
    blocked 4000 by lo section 1 lock m, ceiling by hi
    above hi 1 jobs 1000
  1 lo 27000 of 100000
    cost 20000
    above hi 3 jobs 3000
    above mid 2 jobs 4000
  load 400000

A task that misses has less than nothing left; of c on top, b and a the last misses by 1000, the first leaves 15000:

  $ printf 'thread b 10\nthread a 20\nthread c 30\n' > down
  $ desk judge examples/three-tasks.toml down
  misses a b
  1 b misses 12000 needs 14000 at 10
  2 a misses 7000 needs 8000 at 20
  3 c 5000 of 20000 at 30
  [3]
  $ desk judge examples/three-tasks.toml down --sort slack
  misses a b
  1 b misses 12000 needs 14000 at 10
  2 a misses 7000 needs 8000 at 20
  3 c 5000 of 20000 at 30
  [3]
  $ printf 'thread a 1\nthread b 2\nthread c 3\n' | desk judge examples/three-tasks.toml - --sort slack
  misses a
  1 a misses 7000 needs 11000 at 1
  2 b 8000 of 12000 at 2
  3 c 5000 of 20000 at 3
  [3]

A no of `admit` has no levels; that of `explain` ends with some, in an order that decides:

  $ desk admit examples/blocked-out.toml --sort slack
  infeasible hi
  [3]
  $ desk explain examples/blocked-out.toml | grep '^[0-9]'
  1 lo 14000 of 50000
  2 hi misses 4400 needs 4500
  $ desk explain examples/blocked-out.toml --sort slack | tail -n 4
  2 hi misses 4400 needs 4500
    cost 2000
    blocked 2500 by lo section 1 lock m
  1 lo 14000 of 50000

Of equal slack, here 2000 of a, b and c, the lower level comes first; one that stands below a task that it must outrank comes
before all:

  $ task='[[task]]\nname = "%s"\nperiod = 10000\ndeadline = %d\ncost = 1000\n'
  $ printf "$task" a 6000 b 5000 c 4000 d 1500 > even.toml
  $ desk admit even.toml --sort slack
  admitted 4
  4 d 1000
  1 a 4000
  2 b 3000
  3 c 2000
  $ { printf "$task" a 5000; printf 'outranks = ["c"]\n'; printf "$task" b 5000 c 1000; } > over.toml
  $ printf 'thread b 1\nthread a 2\nthread c 3\n' > below
  $ desk judge over.toml below --sort slack
  misses a
  2 a below c at 2
  3 c 1000 of 1000 at 3
  1 b 3000 of 5000 at 1
  [3]
  $ desk explain over.toml --at below --sort slack
  misses a
  2 a below c
  3 c 1000 of 1000
    cost 1000
  1 b 3000 of 5000
    cost 1000
    above c 1 jobs 1000
    above a 1 jobs 1000
  load 300000
  [3]

What is said of chains stands last, as else:

  $ desk admit examples/steer.toml --sort slack
  admitted 4
  4 wheel 600
  3 camera 2600
  2 plan 9200
  1 log 17400
  chain steer 44200 of 45000
  $ desk settings examples/steer.toml > now
  $ desk judge examples/steer.toml now --sort slack
  meets 4
  4 wheel 600 of 5000 at 4
  3 camera 2600 of 10000 at 3
  2 plan 9200 of 20000 at 2
  1 log 17400 of 100000 at 1
  chain steer 44200 of 45000
  $ desk explain examples/steer.toml --sort slack > said
  $ grep '^[0-9]' said
  4 wheel 600 of 5000
  3 camera 2600 of 10000
  2 plan 9200 of 20000
  1 log 17400 of 100000
  $ desk explain examples/steer.toml --at now --sort slack | sed 's/^meets/admitted/' | cmp - said
  $ desk explain examples/steer.toml | sed '1,/^load/d' > chains
  $ sed '1,/^load/d' said | cmp - chains
  $ sed 's/45000/44199/' examples/steer.toml | desk admit - --sort slack | tail -n 2
  1 log 17400
  chain steer 44200 misses 44199 least 42200

Another word is refused, and other commands don't take it:

  $ desk admit examples/shared-lock.toml --sort level
  (on standard error) no such order of lines: --sort takes slack
  [2]
  $ desk admit examples/shared-lock.toml --sort 2> notes
  [2]
  $ desk limits examples/shared-lock.toml --sort slack 2> notes
  [2]
