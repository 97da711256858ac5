A set may have a table `[node]`: what the node itself takes of a job, of a lock, and how late a thread may begin. Every
command then speaks of the set with that in each task. (`interrupt.t` has timers, which take of other tasks.)

The shared lock, with 20 of a job, 2 of a lock and 15 late: lo costs 20000 + 20 + 2, hi 1000 + 20 + 2, mid 2000 + 20; the
sections are 2 longer and 20 later; each jitter is 15. So lo takes 20022 and three times 1022, twice 2020, and 15; mid 2020,
4002, 1022 and 15; hi 1022, 4002 and 15:

  $ { printf '[node]\njob = 20\nlock = 2\nlate = 15\n'; cat examples/shared-lock.toml; } > set.toml
  $ desk admit set.toml
  admitted 3
  1 lo 27143
  2 mid 7059
  3 hi 5039
  $ desk script set.toml 1
  open 1
  put 1 lo 0 100000 100000 20022 j=15 node=20+2+0+15 m@120:4002
  put 1 mid 1 20000 20000 2020 j=15 node=20+2+0+15
  put 1 hi 2 10000 10000 1022 j=15 node=20+2+0+15 m@20:202
  commit 1
  $ desk script set.toml 1 | desk play - | tail -n 3
  level 1 lo 1 27143
  level 2 mid 1 7059
  level 3 hi 1 5039
  $ desk explain set.toml --task hi
  admitted 3
  3 hi 5039 of 10000
    cost 1000
    node 22
    jitter 15
    blocked 4002 by lo section 1 lock m
  $ desk limits set.toml --task hi | sed -n '2,6p'
  hi cost 1000 5961 5961
  hi period 10000 5039 5039 with deadline 5039 5039
  hi deadline 10000 5039 5039
  hi jitter 0 4961 4961
  hi section 1 len 200 1000 1000 by cost
  $ desk certify set.toml > cert
  $ head -n 3 cert
  desk-certificate 2
  best 3
  level 1 lo 27128
  $ desk check set.toml cert
  best
  $ desk check examples/shared-lock.toml cert
  best
  $ desk certify examples/shared-lock.toml | desk check set.toml -
  refused: WrongVersion
  [5]

What runs is that set, and lists are made for it: each job may be 15 late, and executes the padded cost.

  $ desk releases set.toml 1000 | tee list
  until 1000
  0 lo 15
  0 mid 15
  0 hi 15
  $ echo 'until 30000' > one; echo '0 lo' >> one; desk simulate set.toml one
  0 20022 lo
  job lo 0 20022
  $ echo 'until 30000' > late; echo '0 lo 16' >> late; desk simulate set.toml late
  refused: TooLate 1
  [4]

A node that takes nothing, as one that isn't there, changes nothing; each number may be absent:

  $ { echo '[node]'; cat examples/shared-lock.toml; } | desk admit -
  admitted 3
  1 lo 27000
  2 mid 7000
  3 hi 5000
  $ { echo 'node.late = 15'; cat examples/shared-lock.toml; } | desk admit -
  admitted 3
  1 lo 27015
  2 mid 7015
  3 hi 5015

Refused:

  $ refused() { printf "$1" > wrong.toml; desk admit wrong.toml 2> said; }
  $ refused 'node = 1\n'
  refused: WrongKind 0 0 node
  [4]
  $ refused '[[node]]\n'
  refused: WrongKind 0 0 node
  [4]
  $ refused '[node]\ntimer = 24\n'
  refused: UnknownOverhead
  [4]
  $ refused '[node]\njob = 1.5\n'
  refused: WrongKind 0 0 job
  [4]
  $ refused '[node]\nlock = -1\nlate = "x"\n'
  refused: WrongKind 0 0 lock
  [4]
  $ refused '[[interrupts]]\nperiod = 4000\ncost = 17\n'
  refused: UnknownKey 0 0
  [4]
  $ refused 'prefer = 1\n[node]\nx = 1\n'
  refused: WrongKind 0 0 prefer
  [4]
  $ refused '[node]\nx = 1\n[[task]]\n'
  refused: UnknownOverhead
  [4]

Where a padded cost is past its period, or a padded jitter isn't below its deadline, the first task by rank is named, whatever
its place:

  $ two='[[task]]\nname = "b"\nperiod = 1000\ndeadline = 100\ncost = 10\n[[task]]\nname = "a"\nweight = 1\nperiod = 1000\ndeadline = 1000\ncost = 500\nsection = [{ locks = ["m", "n"], at = 0, len = 10 }]\n'
  $ refused "[node]\njob = 500\n$two"
  infeasible b a
  [3]
  $ refused "[node]\njob = 501\n$two"
  refused: PaddedCost a
  [4]
  $ refused "[node]\nlock = 250\nlate = 99\n$two"
  infeasible b a
  [3]
  $ refused "[node]\nlock = 251\n$two"
  refused: PaddedCost a
  [4]
  $ refused "[node]\nlock = 251\nlate = 100\n$two"
  refused: PaddedJitter b
  [4]
  $ refused "[node]\njob = 10000000\nlock = 10000000\nlate = 10000000\n$two"
  refused: PaddedCost b
  [4]
  $ cat said
  wrong.toml: line 5, task 1 (b): with job and lock of [node] the cost is past the period: cost 10, job 10000000 and 0 times lock 10000000 make 10000010, period 1000
  $ refused '[node]\njob = 10000000\n'
  admitted 0
  $ refused '[node]\njob = 9223372036854775807\n'
  refused: BadOverhead job
  [4]

Sentences:

  $ refused '[node]\ntimer = 24\n' > /dev/null || cat said
  wrong.toml: unknown key timer; [node] has job, lock, release, late
  $ refused '[node]\nlate = "x"\n' > /dev/null || cat said
  wrong.toml: late has to be a whole number of microseconds from 0, without quotes; it is the string "x"
  $ refused "[node]\njob = 9\nlock = 251\n$two" > /dev/null || cat said
  wrong.toml: line 9, task 2 (a): with job and lock of [node] the cost is past the period: cost 500, job 9 and 2 times lock 251 make 1011, period 1000
  $ refused "[node]\nlock = 10000000\n$two" > /dev/null || cat said
  wrong.toml: line 8, task 2 (a): with job and lock of [node] the cost is past the period: cost 500, job 0 and 2 times lock 10000000 make 20000500, period 1000
  $ refused "[node]\nlate = 100\n$two" > /dev/null || cat said
  wrong.toml: line 3, task 1 (b): with late of [node] the jitter isn't below the deadline: jitter 0 and late 100 make 100, deadline 100

Of several teams' documents those that say a node must say the same, and it holds for the tasks of all; where there is a
`node.toml`, it has to give them the right to. A budget bounds what a document says, here 50 thousandths and no more.

  $ mkdir teams
  $ printf '[[task]]\nname = "a"\nperiod = 10000\ndeadline = 10000\ncost = 500\n' > teams/one.toml
  $ printf '[[task]]\nname = "b"\nperiod = 10000\ndeadline = 10000\ncost = 500\n' > teams/two.toml
  $ printf '[node]\njob = 100\n' > teams/base.toml
  $ printf '[team.one]\nload = 50\n[team.base]\nnode = true\n[team.two]\nnode = true\n' > teams/node.toml
  $ desk admit teams
  admitted 2
  1 a 1200
  2 b 600
  $ printf '[node]\njob = 100\nlock = 0\n' >> teams/two.toml
  $ desk admit teams | head -n 1
  admitted 2
  $ printf '[node]\njob = 99\n' > teams/base.toml
  $ desk admit teams
  refused: OtherNode two base
  [4]
  $ desk admit teams 2>&1 > /dev/null
  teams: two.toml: another [node] than base.toml; one team says it for all
  [4]

What the node takes has no room in another team's task; `node.toml` itself may say it:

  $ printf '[node]\njob = 99\nlock = 0\n[[task]]\nname = "c"\nperiod = 10000\ndeadline = 10000\ncost = 9902\n' > teams/base.toml
  $ printf '[[task]]\nname = "b"\nperiod = 10000\ndeadline = 10000\ncost = 500\n' > teams/two.toml
  $ desk admit teams
  refused: PaddedCost c
  (on standard error) teams: base.toml: line 4, task 1 (c): with job and lock of [node] the cost is past the period: cost 9902, job 99 and 0 times lock 0 make 10001, period 10000
  [4]
  $ printf '[node]\njob = 9501\n' > teams/base.toml
  $ desk admit teams 2>&1 > /dev/null
  teams: one.toml: line 1, task 1 (a): with job and lock of [node] the cost is past the period: cost 500, job 9501 and 0 times lock 0 make 10001, period 10000
  [4]
  $ printf '[node]\njob = 9501\n' > teams/node.toml && : > teams/base.toml
  $ desk admit teams 2>&1
  teams: one.toml: line 1, task 1 (a): with job and lock of [node] the cost is past the period: cost 500, job 9501 and 0 times lock 0 make 10001, period 10000
  refused: PaddedCost a
  [4]
