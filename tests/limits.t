`desk limits SET` prints the first line of `desk admit`; then for each task by rank and each of its numbers, cost, period,
deadline, jitter and the length of each section, its value, the furthest with which the order of `desk admit` passes as it
stands (`-` after a no), and the furthest with which some order passes, all else equal; after a yes each task's slack, too.
Where no value of a number helps, it has no line. The last line has the greatest factors on all execution, in thousandths,
with which that order passes and with which some order does, and the task that fails first past the latter.

The empty set has no task, and no factor:

  $ desk limits examples/empty-set.toml
  admitted 0

One task may fill its period, which is its deadline, too:

  $ desk limits examples/fills-its-period.toml
  admitted 1
  x cost 1000 1000 1000 by period
  x period 1000 1000 1000 by cost
  x deadline 1000 1000 1000
  x jitter 0 0 0
  x slack 0
  all 1000 1000 x

With c lowest the three tasks need 3 jobs of a, 2 of b and one of c within 20000: 9000 + 6000 + 5000, all of it. With a or b
lowest each may take less still. a has a third job within 20000 as long as its period is below 10000, and a fourth where it
is below 20000 / 3. With b above it a needs 6000, alone on top 3000.

  $ desk limits examples/three-tasks.toml
  admitted 3
  a cost 3000 3000 3000
  a period 7000 6667 6667 with deadline 6667 6667
  a deadline 7000 6000 3000
  a jitter 0 1000 1000
  a slack 1000
  b cost 3000 3000 3000
  b period 12000 10000 10000 with deadline 10000 10000
  b deadline 12000 3000 3000
  b jitter 0 4000 4000
  b slack 9000
  c cost 5000 5000 5000
  c period 20000 20000 20000
  c deadline 20000 20000 20000
  c jitter 0 0 0
  c slack 0
  all 1000 1000 c

With a deadline of 19000 one of them has to give up 1000: a a third of it for each of its jobs, b half of it, c all. Or all
of them a twentieth: 3 * 2850 + 2 * 2850 + 4750. Or a comes every 8500, and b lowest has 14000; or b so, or every 14000. No
jitter can be less, and no period of c helps.

  $ desk limits examples/three-tasks-too-tight.toml
  infeasible a b c
  a cost 3000 - 2666
  a period 7000 - 8500
  a deadline 7000 - 8500 with period 8500
  b cost 3000 - 2500
  b period 12000 - 14000
  b deadline 12000 - 14000 with period 14000
  c cost 5000 - 4000
  c deadline 19000 - 20000
  all - 950 c
  [3]

Of three tasks that take nine tenths each, no change of one number helps; each may take 3333 at most, all of them 370
thousandths of what they take.

  $ for it in a b c; do printf '[[task]]\nname = "%s"\nperiod = 10000\ndeadline = 10000\ncost = 9000\n' $it; done | desk limits -
  infeasible a b c
  no single change
  all - 370 a
  [3]

lo has 100000 and leaves 5 jobs of mid and 10 of hi: 80000. mid has 20000, less the section of lo and two jobs of hi; and lo
lets it have as much: 100000 - 20000 - 10000 for five jobs. hi has 10000, less the section of lo, and 2000 makes 2000 + 8000
of it. Sections grow with the factor.

  $ desk limits examples/shared-lock.toml | grep -e cost -e section -e slack -e all
  lo cost 20000 80000 80000
  lo section 1 len 4000 9000 9000
  lo slack 73000
  mid cost 2000 14000 14000
  mid slack 13000
  hi cost 1000 6000 6000
  hi section 1 len 200 1000 1000 by cost
  hi slack 5000
  all 2000 2000 hi

hi has 4400, less the section of lo: its cost, that section or the deadline has to give 100. lo's cost can't help: its
section stays as long, and above hi it takes 3500 at least.

  $ desk limits examples/blocked-out.toml
  infeasible hi
  hi cost 2000 - 1900
  hi deadline 4400 - 4500
  lo section 1 len 2500 - 2400
  lock m len 2500 - 2400
  all - 977 hi
  [3]

With such a value some order passes, with one less none does:

  $ sed 's/len = 2500/len = 2400/' examples/blocked-out.toml > set.toml
  $ desk limits set.toml | grep -e cost -e section -e all
  hi cost 2000 2000 2000
  hi section 1 len 500 2000 2000 by cost
  lo cost 10000 40000 40000
  lo section 1 len 2400 2400 2400
  all 1000 1000 hi
  $ sed 's/len = 2500/len = 2401/' examples/blocked-out.toml | desk limits -
  infeasible hi
  hi cost 2000 - 1999
  hi deadline 4400 - 4401
  lo section 1 len 2401 - 2400
  lock m len 2401 - 2400
  all - 999 hi
  [3]

The printed order is that of the names here, and a may take what b leaves of 1000. With b lowest it may take more, half of
what b leaves of 2000. All together they may take 1818 thousandths of the 1100 that b has then to wait for and do.

  $ desk limits - << END
  > [[task]]
  > name = "a"
  > period = 1000
  > deadline = 1000
  > cost = 300
  > [[task]]
  > name = "b"
  > period = 2000
  > deadline = 2000
  > cost = 500
  > END
  admitted 2
  a cost 300 500 750
  a period 1000 1000 1000 by 1000
  a deadline 1000 800 300
  a jitter 0 200 700
  a slack 200
  b cost 500 700 1400
  b period 2000 1000 1000 with deadline 1000 1000 by 1000
  b deadline 2000 500 500
  b jitter 0 1200 1200
  b slack 1500
  all 1250 1818 b

A cost may be as short as the end of the last section: that of y is 12, and y has 10. A deadline of 20 helps; and a node that
is twice as fast.

  $ desk limits - << END
  > [[task]]
  > name = "x"
  > period = 1000
  > deadline = 1000
  > cost = 1
  > [[task]]
  > name = "y"
  > period = 2000
  > deadline = 10
  > cost = 20
  > section = [{ locks = ["m"], at = 4, len = 8 }]
  > END
  infeasible y
  y deadline 10 - 20
  all - 500 y
  (on standard error) note: lock m has one user, y
  [3]

No single number mends two tasks that are too late each; all of it together does:

  $ desk limits - << END
  > [[task]]
  > name = "x"
  > period = 1000
  > deadline = 10
  > cost = 20
  > [[task]]
  > name = "y"
  > period = 2000
  > deadline = 10
  > cost = 20
  > END
  infeasible x y
  no single change
  all - 250 x
  [3]

The factor is of time, whole microseconds or not: hi has 3, its own 1 and the 1 that lo keeps the lock, and may take half as
much again.

  $ desk limits - << END | tail -n 1
  > [[task]]
  > name = "hi"
  > period = 1000
  > deadline = 3
  > cost = 1
  > section = [{ locks = ["m"], at = 0, len = 1 }]
  > [[task]]
  > name = "lo"
  > period = 1000
  > deadline = 1000
  > cost = 4
  > section = [{ locks = ["m"], at = 3, len = 1 }]
  > END
  all 1500 1500 hi

A section that doesn't say where it begins moves along with a longer one before it: the first may take what the second leaves
up to the third, which says where it begins.

  $ cat > along.toml << END
  > [[task]]
  > name = "arm"
  > period = 1000
  > deadline = 1000
  > cost = 100
  > section = [{ locks = ["m"], len = 5 }, { locks = ["n"], len = 7 }, { locks = ["m"], at = 30, len = 5 }]
  > [[task]]
  > name = "log"
  > period = 2000
  > deadline = 2000
  > cost = 100
  > section = [{ locks = ["m", "n"], len = 7 }]
  > END
  $ desk limits along.toml | grep section
  arm section 1 len 5 23 23 by section 3
  arm section 2 len 7 25 25 by section 3
  arm section 3 len 5 70 70 by cost
  log section 1 len 7 100 100 by cost
  $ desk limits along.toml --task arm | grep 'section 1'
  arm section 1 len 5 23 23 by section 3
  $ desk settings along.toml > today
  $ desk limits along.toml --at today | grep 'arm section 1'
  arm section 1 len 5 23 23 by section 3
  $ mkdir node && cp along.toml node/arm.toml && desk limits node | grep 'arm section 1'
  arm section 1 len 5 23 23 by section 3

That, typed in, is admitted, and one more isn't a set; where the second says that it begins at 5, it holds the first.

  $ sed 's/m"], len = 5/m"], len = 23/' along.toml | desk admit - | head -n 1
  admitted 2
  $ sed 's/m"], len = 5/m"], len = 24/' along.toml | desk admit -
  refused: Overlap 1 3
  [4]
  $ sed 's/n"], len = 7 },/n"], at = 5, len = 7 },/' along.toml | desk limits - | grep 'arm section'
  arm section 1 len 5 5 5 by section 2
  arm section 2 len 7 25 25 by section 3
  arm section 3 len 5 70 70 by cost

Of two sections of a lock that are too long each none alone mends the set. Then the lock has a line: top has 1000 and takes
600, so that 400 are left for each of them.

  $ cat > twice.toml << END
  > [[task]]
  > name = "top"
  > period = 1000
  > deadline = 1000
  > cost = 600
  > section = [{ locks = ["m"], len = 10 }]
  > [[task]]
  > name = "low"
  > period = 10000
  > deadline = 10000
  > cost = 1500
  > section = [{ locks = ["m"], len = 700 }, { locks = ["m"], len = 600 }]
  > END
  $ desk limits twice.toml
  infeasible top
  top cost 600 - 300
  top deadline 1000 - 1300 with period 1300
  lock m len 700 - 400
  all - 769 top
  [3]
  $ sed 's/len = [67]00/len = 400/g' twice.toml | desk admit - | head -n 1
  admitted 2
  $ sed 's/len = [67]00/len = 401/g' twice.toml | desk admit - | head -n 1
  infeasible top
  $ sed 's/len = 700/len = 400/' twice.toml | desk admit - | head -n 1
  infeasible top

The same where they are of two tasks, of which one takes another lock, too; a lock with one user has no line, unless a section
takes it beside another one.

  $ cat > nested.toml << END
  > [[task]]
  > name = "top"
  > period = 1000
  > deadline = 1000
  > cost = 600
  > section = [{ locks = ["m"], len = 10 }]
  > [[task]]
  > name = "one"
  > period = 10000
  > deadline = 10000
  > cost = 700
  > section = [{ locks = ["m", "n"], len = 700 }]
  > [[task]]
  > name = "two"
  > period = 20000
  > deadline = 20000
  > cost = 700
  > section = [{ locks = ["m"], len = 401 }, { locks = ["alone"], len = 50 }]
  > END
  $ desk limits nested.toml 2> notes | grep lock
  lock m len 700 - 400
  $ sed 's/len = 401/len = 400/' nested.toml | desk limits - 2> notes | grep -e section -e lock
  one section 1 len 700 - 400
  lock m len 700 - 400
  lock n len 700 - 400

In an order that fails only what mends it has a line, with the most that some order leaves. Below low top misses whatever the
lock takes:

  $ printf 'thread low 1\nthread top 2\n' > up-to-top
  $ desk limits twice.toml --at up-to-top | grep lock
  lock m len 700 400 400
  $ printf 'thread low 2\nthread top 1\n' | desk limits twice.toml --at - | grep lock
  [1]
  $ desk limits twice.toml --at up-to-top --task low
  misses top
  [3]

Five of what is left are the node's where it takes as much of each lock, and five of top's cost:

  $ { cat twice.toml; printf '[node]\nlock = 5\n'; } > calls.toml
  $ desk limits calls.toml | grep lock
  lock m len 700 - 390

A refused set prints as in `admit`:

  $ echo x = 1 | desk limits -
  refused: UnknownKey 0 0
  [4]
  $ desk limits no-such-file
  refused: ReadFailed
  [7]
  $ desk limits 2> /dev/null
  [2]

Names alone put a below b, where it has to wait for all of b: that order bears a ninth more, the other one far more:

  $ printf 'task = [{ name = "a", period = 10000, deadline = 10000, cost = 1000 }, { name = "b", period = 100000, deadline = 100000, cost = 8000 }]' > named.toml
  $ desk limits named.toml | grep -e cost -e all
  a cost 1000 2000 9200
  b cost 8000 9000 90000
  all 1111 5555 b
  $ desk limits --prefer deadline named.toml | grep all
  all 5555 5555 b

With `--at` how far each number may go in an order that settings give, beside some order. With mid on top a job of hi is done
after 1000, 4000 of lo and 2000 of mid, so that its deadline leaves 3000, for mid too; a period of mid of 4500 has two jobs
in these 9000:

  $ printf 'thread lo 1\nthread hi 2\nthread mid 3\n' > mid-on-top
  $ desk limits examples/shared-lock.toml --at mid-on-top
  meets 3
  lo cost 20000 80000 80000
  lo period 100000 27000 27000 with deadline 27000 27000
  lo deadline 100000 27000 27000
  lo jitter 0 73000 73000
  lo section 1 len 4000 7000 9000
  lo slack 73000
  mid cost 2000 5000 14000
  mid period 20000 4500 4500 with deadline 4500 4500
  mid deadline 20000 2000 2000
  mid jitter 0 18000 18000
  mid slack 18000
  hi cost 1000 4000 6000
  hi period 10000 7000 5000 with deadline 7000 5000
  hi deadline 10000 7000 5000
  hi jitter 0 3000 5000
  hi section 1 len 200 1000 1000 by cost
  hi slack 3000
  all 1428 2000 hi
  $ desk limits --at=- examples/shared-lock.toml --task=hi < mid-on-top
  meets 3
  hi cost 1000 4000 6000
  hi period 10000 7000 5000 with deadline 7000 5000
  hi deadline 10000 7000 5000
  hi jitter 0 3000 5000
  hi section 1 len 200 1000 1000 by cost
  hi slack 3000

Interrupts have lines, too, by the team and their place there, and each number of a node that takes something. One more of
`job` is padded as the node's table would be: so a timer is at most all of it; and nobody calls for a lock here.

  $ mkdir both
  $ x='[[task]]\nname = "x"\nperiod = 10000\ndeadline = 10000\ncost = 4000\n'
  $ y='[[task]]\nname = "y"\nperiod = 20000\ndeadline = 20000\ncost = 6000\n'
  $ printf "interrupt = [{ period = 1000, cost = 100 }]\n$x" > both/one.toml
  $ ticks='interrupt = [{ period = 500, cost = 60 }, { period = 4000, cost = 100 }]\n'
  $ printf "$ticks[node]\njob = 50\nrelease = 20\nlate = 30\n$y" > both/two.toml
  $ desk limits both 2> notes | grep -e interrupt -e node -e all
  one interrupt 1 cost 100 146 146
  one interrupt 1 period 1000 688 688
  two interrupt 1 cost 60 83 83
  two interrupt 1 period 500 363 363
  two interrupt 2 cost 100 284 284
  two interrupt 2 period 4000 1425 1425
  node job 50 356 356
  node lock 0 10000000 10000000 by 10000000
  node release 20 50 50 by job
  node late 30 1170 1170
  all 1048 1048 y
  $ desk settings both 2> notes | desk limits both --at - 2> notes | grep -e interrupt -e node | head -n 3
  one interrupt 1 cost 100 146 146
  one interrupt 1 period 1000 688 688
  two interrupt 1 cost 60 83 83
  $ desk limits both --task x 2> notes | grep -c -e interrupt -e node
  0
  [1]

Those of the node's document come first, as its own:

  $ mkdir three
  $ printf '[team.one]\nnode = true\n[team.two]\nnode = true\n' > three/node.toml
  $ interrupt() { printf '[[interrupt]]\nperiod = 10000\ncost = %d\n' $1; }
  $ { interrupt 100; interrupt 400; } >> three/node.toml
  $ task='[[task]]\nname = "%s"\nperiod = 10000\ndeadline = 10000\ncost = %d\n'
  $ { interrupt 200; printf "$task" x 1000; } > three/one.toml
  $ { interrupt 300; printf "$task" y 2000; } > three/two.toml
  $ desk limits three 2> notes | grep interrupt
  node interrupt 1 cost 100 6100 6100
  node interrupt 1 period 10000 164 164
  node interrupt 2 cost 400 6400 6400
  node interrupt 2 period 10000 625 625
  one interrupt 1 cost 200 6200 6200
  one interrupt 1 period 10000 323 323
  two interrupt 1 cost 300 6300 6300
  two interrupt 1 period 10000 477 477

`explain` counts the same over all documents, the node's first:

  $ desk explain three --task y | grep interrupt
    interrupt 1 1 jobs 100
    interrupt 2 1 jobs 400
    interrupt 3 1 jobs 200
    interrupt 4 1 jobs 300

One that takes nine tenths of all time is the one change that mends the set; one that takes all of it, where x fills the rest:

  $ sed -i 's/cost = 100 }/cost = 900 }/' both/one.toml
  $ desk limits both 2> notes
  infeasible x y
  one interrupt 1 cost 900 - 146
  one interrupt 1 period 1000 - 6584
  all - 569 y
  [3]
  $ printf 'interrupt = [{ period = 100, cost = 100 }]\n[[task]]\nname = "x"\nperiod = 10000\ndeadline = 10000\ncost = 9990\n' | desk limits - 2> notes
  infeasible x
  interrupt 1 cost 100 - 0
  all - 500 x
  [3]

Of an order that fails each single change that mends it has a line, also where another order passes. With c on top a needs
8000, and b, lowest, two jobs of a and one of c beside its own 3000: 14000. Each job of a gives 1000 of its 3000, or c 2000
of its 5000; or a comes every 11000 and has as long: b is then done as a's second job comes.

  $ printf 'thread b 10\nthread a 20\nthread c 30\n' > down
  $ desk limits examples/three-tasks.toml --at down --task c
  misses a b
  c cost 5000 3000 5000
  [3]
  $ desk limits examples/three-tasks.toml --at down
  misses a b
  a cost 3000 2000 3000
  a deadline 7000 11000 3000 with period 11000 7000
  c cost 5000 3000 5000
  all 857 1000 c
  [3]

With a lowest it needs 11000. Its deadline takes the period along in that order, and not in the best one:

  $ printf 'thread a 1\nthread b 2\nthread c 3\n' > up
  $ desk limits examples/three-tasks.toml --at up
  misses a
  a deadline 7000 11000 3000 with period 11000 7000
  c cost 5000 1000 5000
  all 636 1000 c
  [3]
  $ sed 's/cost = 5000/cost = 1000/' examples/three-tasks.toml | desk judge - up | head -n 1
  meets 3
  $ sed 's/cost = 5000/cost = 1001/' examples/three-tasks.toml | desk judge - up | head -n 1
  misses a

Where a task stands below one that it must outrank, no number mends the order, and no factor:

  $ printf '[[task]]\nname = "a"\nperiod = 1000\ndeadline = 1000\ncost = 900\noutranks = ["b"]\n[[task]]\nname = "b"\nperiod = 9000\ndeadline = 9000\ncost = 90\n' > pair.toml
  $ printf 'thread a 1\nthread b 2\n' | desk limits pair.toml --at -
  misses a
  no single change
  all - 1098 b
  [3]
  $ printf 'thread a 1\nthread b 2\n' | desk limits pair.toml --at - --task a
  misses a
  [3]

In the best order the numbers are as without settings; the empty set has none:

  $ desk limits examples/shared-lock.toml | tail -n +2 > best
  $ desk settings examples/shared-lock.toml | desk limits examples/shared-lock.toml --at - | tail -n +2 | cmp - best
  $ desk limits examples/empty-set.toml --at - < /dev/null
  meets 0

Settings are refused as by `judge`, before the name of a task:

  $ echo 'thread c 1' | desk limits --at=- examples/three-tasks.toml --task d
  refused: MissingTask a
  [4]
  $ desk limits --at=down examples/three-tasks.toml --task d
  refused: NoSuchTask d
  [4]

A task's timer, which takes of whoever executes, has to have room in the period, too:

  $ timed() { printf '[node]\njob = 50\nrelease = 50\n[[task]]\nname = "h"\nperiod = %s\ndeadline = %s\ncost = %s\n' "$@"; }
  $ timed 1500 1500 450 | desk limits - | grep '^h cost'
  h cost 450 1450 1450 by period
  $ timed 1600 1600 1450 | desk limits - | grep '^h period'
  h period 1600 1500 1500 with deadline 1500 1500 by cost
