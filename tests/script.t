`desk script SET TEAM` prints a set as the script of a team: it opens a draft, puts each task by rank, and commits. Without
TEAM it is that of each team that has tasks.

  $ desk script examples/three-tasks-weighted.toml 3
  open 3
  put 1 b 1 12000 12000 3000
  put 1 c 1 20000 20000 5000
  put 1 a 10 7000 7000 3000
  commit 1
  $ desk script examples/jitter.toml 8
  open 8
  put 1 a 0 7000 7000 3000 j=1000
  put 1 b 0 12000 12000 3000
  put 1 c 0 20000 20000 5000
  commit 1

The names that a task must outrank, and sections:

  $ desk script examples/shared-lock.toml 1
  open 1
  put 1 lo 0 100000 100000 20000 m@100:4000
  put 1 mid 1 20000 20000 2000
  put 1 hi 2 10000 10000 1000 m@0:200
  commit 1
  $ desk script examples/watchdog.toml 1
  open 1
  put 1 log 0 200000 200000 30000 bus@0:1000
  put 1 watchdog 1 100000 100000 500 over=motion+sensors
  put 1 sensors 2 20000 20000 5000 bus@1000:500
  put 1 motion 3 10000 10000 3000
  commit 1

A section that doesn't say where it begins begins where the one before it ends, the first at 0:

  $ cat > behind.toml << END
  > [[task]]
  > name = "a"
  > period = 10000
  > deadline = 10000
  > cost = 1000
  > section = [{ locks = ["m"], len = 100 }, { locks = ["n"], len = 50 }, { locks = ["m"], at = 200, len = 1 }, { len = 10, locks = ["n"] }]
  > [[task]]
  > name = "b"
  > period = 20000
  > deadline = 20000
  > cost = 1000
  > [[task.section]]
  > locks = ["n"]
  > len = 1000
  > END
  $ desk script behind.toml 1
  open 1
  put 1 a 0 10000 10000 1000 m@0:100 n@100:50 m@200:1 n@201:10
  put 1 b 0 20000 20000 1000 n@0:1000
  commit 1
  (on standard error) note: lock m has one user, a

What the node takes, and interrupts, those of a document on the account of the first by rank: a job takes 20 more, 5 of them
by its timer, which aren't in its cost:

  $ { printf '[node]\njob = 20\nrelease = 5\n[[interrupt]]\nperiod = 4000\ncost = 17\n[[interrupt]]\nperiod = 1000000\ncost = 300\n'; cat examples/three-tasks.toml; } > node.toml
  $ desk script node.toml 1
  open 1
  put 1 a 0 7000 7000 3015 node=20+0+5+0 irq=4000:17+1000000:300
  put 1 b 0 12000 12000 3015 node=20+0+5+0
  put 1 c 0 20000 20000 5015 node=20+0+5+0
  commit 1
  $ { printf '[[interrupt]]\nperiod = 100\ncost = 0\n'; cat examples/jitter.toml; } | desk script - 1 | sed -n 2p
  put 1 a 0 7000 7000 3000 j=1000 irq=100:0

With a preference another task is the first, and no interrupt is lost:

  $ preferred() { printf '[[task]]\nname = "%s"\nperiod = %s\ndeadline = %s\ncost = 900\n' $1 $2 $2; }
  $ { printf 'prefer = "deadline"\n[[interrupt]]\nperiod = 1000\ncost = 500\n'; preferred a 2000; preferred b 4000; } > preferred.toml
  $ desk admit preferred.toml
  infeasible b a
  [3]
  $ desk script preferred.toml
  open 1
  put 1 b 0 4000 4000 900 irq=1000:500
  put 1 a 1 2000 2000 900
  commit 1
  $ desk script preferred.toml | desk play - | grep infeasible
  infeasible b a

The empty set:

  $ desk script examples/empty-set.toml 1
  open 1
  commit 1

By deadlines the weights are those that compare deadlines less jitter, also where the set says so:

  $ desk script examples/three-tasks.toml 1 --prefer deadline | grep put | cut -d ' ' -f 3,4
  c 0
  b 1
  a 2
  $ { echo 'prefer = "deadline"'; cat examples/three-tasks.toml; } | desk script - 1 > own
  $ desk script examples/three-tasks.toml 1 --prefer deadline | cmp - own

Played, it admits as `admit` does, with the same levels and responses, and refuses as that does:

  $ for set in shared-lock shared-lock-node watchdog robot robot-mended blocked-out-repaired; do
  >   desk admit examples/$set.toml | sed 's/^\([0-9]* [a-z]*\) /level \1 1 /' | sed 1d > wanted
  >   desk script examples/$set.toml 1 | desk play - | grep level | cmp - wanted
  > done
  $ desk script examples/robot.toml 1 | desk play - | grep infeasible
  infeasible motor
  $ desk script examples/shared-lock.toml 2 | desk rush - 2 | head -n 1
  1 team 2 admitted 1

Without a number each team has a draft of its own, in the order of the documents, with the interrupts that it says; the first
task of the set has those of a document without tasks. Played, the book has the folder's set:

  $ mkdir node
  $ task() { printf '[[task]]\nname = "%s"\nperiod = %s\ndeadline = %s\ncost = %s\n' $1 $2 $2 $3; }
  $ { task b 20000 1000; task d 40000 1000; echo 'weight = 3'; } > node/arm.toml
  $ { task a 10000 1000; task c 30000 1000; } > node/cam.toml
  $ : > node/base.toml
  $ printf '[[interrupt]]\nperiod = 4000\ncost = 17\n' > node/node.toml
  $ desk script node
  open 1
  put 1 b 0 20000 20000 1000
  put 1 d 3 40000 40000 1000
  commit 1
  open 2
  put 2 a 0 10000 10000 1000 irq=4000:17
  put 2 c 0 30000 30000 1000
  commit 2
  $ desk script node | desk play - | grep -c admitted
  2
  $ desk admit node | sed 's/^\([0-9]* [a-z]*\) /level \1 X /' | sed 1d > wanted
  $ desk script node | desk play - | sed -n 's/^\(level [0-9]* [a-z]*\) [0-9]*/\1 X/p' | cmp - wanted
  $ mkdir both; cp node/arm.toml node/cam.toml both
  $ printf '[[interrupt]]\nperiod = 2000\ncost = 20\n' >> both/arm.toml
  $ printf '[[interrupt]]\nperiod = 1000\ncost = 10\n' >> both/cam.toml
  $ desk script both | grep irq
  put 1 b 0 20000 20000 1000 irq=2000:20
  put 2 a 0 10000 10000 1000 irq=1000:10
  $ desk admit both | sed 's/^\([0-9]* [a-z]*\) /level \1 X /' | sed 1d > wanted
  $ desk script both | desk play - | sed -n 's/^\(level [0-9]* [a-z]*\) [0-9]*/\1 X/p' | cmp - wanted

One document is one team's, of an empty set there is none, and more teams than a script has are refused:

  $ desk script examples/shared-lock.toml 1 > one
  $ desk script examples/shared-lock.toml | cmp - one
  $ desk script examples/empty-set.toml
  $ for n in 1 2 3 4 5 6; do task t$n 10000 10 > node/t$n.toml; done
  $ desk script node | tail -n 3
  open 8
  put 8 t6 0 10000 10000 10
  commit 8
  $ task t7 10000 10 > node/t7.toml
  $ desk script node
  refused: TooManyTeams
  (on standard error) node: more than 8 teams have tasks, and a script has 8
  [4]

A set that is none, and numbers that no team has:

  $ echo 'task = [{}]' | desk script - 1
  refused: MissingKey 1 0 name
  [4]
  $ desk script examples/shared-lock.toml 0 2> said
  [2]
  $ desk script examples/shared-lock.toml 9 2> said
  [2]
