What no task asks for: `release` of `[node]` is what a task's timer takes of whoever executes, `[[interrupt]]` an interrupt
of the node's own. Both stand in the demand of every task, whatever the order.

The shared lock, of whose jobs the node takes 20, 5 of them by a timer, 2 of a lock, and 15 late; a tick comes each 4000 and
takes 17. Padded by 20 - 5 = 15 of a job, lo costs 20017 and its section 4002, mid 2015, hi 1017. Within its 27247, less 15,
lo has three times 1017, twice 2015, six timers and seven ticks; mid within 7083 has 4002, 1017, three timers and two ticks;
hi within 5068 has 4002, three timers and two ticks. The load has 50, 250 and 500 millionths of timers, and 4250 of ticks:

  $ set=examples/shared-lock-node.toml
  $ desk admit $set
  admitted 3
  1 lo 27262
  2 mid 7098
  3 hi 5083
  $ desk explain $set
  admitted 3
  1 lo 27262 of 100000
    cost 20000
    node 17
    jitter 15
    above hi 3 jobs 3051
    above mid 2 jobs 4030
    timers 30
    interrupt 1 7 jobs 119
  2 mid 7098 of 20000
    cost 2000
    node 15
    jitter 15
    blocked 4002 by lo section 1 lock m, ceiling by hi
    above hi 1 jobs 1017
    timers 15
    interrupt 1 2 jobs 34
  3 hi 5083 of 10000
    cost 1000
    node 17
    jitter 15
    blocked 4002 by lo section 1 lock m
    timers 15
    interrupt 1 2 jobs 34
  load 407670

Numbers are the task's own: hi may execute 5900, since 5917, 4002, three timers and three ticks come to the 9985 of its
limit. The section may fill the cost; 4917 late it is done in time as it is.

  $ desk limits $set --task hi
  admitted 3
  hi cost 1000 5900 5900
  hi period 10000 5083 5083 with deadline 5083 5083
  hi deadline 10000 5083 5083
  hi jitter 0 4917 4917
  hi section 1 len 200 1000 1000 by cost
  hi slack 4917

A certificate of such a set is of version 4, which serves for no other one; one of version 1 or 2 doesn't serve for this.

  $ desk certify $set | tee cert
  desk-certificate 4
  best 3
  level 1 lo 27247
  level 2 mid 7083
  level 3 hi 5068
  end
  $ desk check $set cert
  best
  $ desk check examples/shared-lock.toml cert
  refused: WrongVersion
  [5]
  $ sed 's/hi 5068/hi 5067/' cert | desk check $set -
  refused: BadPass 3
  [5]
  $ for version in 1 2; do sed "s/^desk-certificate 4/desk-certificate $version/" cert | desk check $set -; done
  refused: WrongVersion
  refused: WrongVersion
  [5]
  $ { printf '[[interrupt]]\nperiod = 100\ncost = 0\n'; cat examples/three-tasks.toml; } > nothing.toml
  $ desk certify nothing.toml > cert
  $ head -n 1 cert
  desk-certificate 4
  $ desk certify examples/three-tasks.toml | sed 1d > other
  $ sed 1d cert | cmp - other
  $ desk check examples/three-tasks.toml cert
  refused: WrongVersion
  [5]

A script has what the node takes of each task, and the interrupts on the account of the first by rank:

  $ desk script $set 1
  open 1
  put 1 lo 0 100000 100000 20017 j=15 node=20+2+5+15 irq=4000:17 m@115:4002
  put 1 mid 1 20000 20000 2015 j=15 node=20+2+5+15
  put 1 hi 2 10000 10000 1017 j=15 node=20+2+5+15 m@15:202
  commit 1
  $ desk script $set 1 | desk play - | tail -n 3
  level 1 lo 1 27262
  level 2 mid 1 7098
  level 3 hi 1 5083

Without the first task the interrupt stays: mid takes 2015, 1017 of hi, two timers of 5, one interrupt, and is late by 15.

  $ { desk script $set 1; printf 'open 1\nremove 2 lo\ncommit 2\n'; } | desk play - | tail -n 2
  level 1 mid 1 3074
  level 2 hi 1 1059

What of these words is no such field:

  $ script() { printf 'open 1\nput 1 a 0 1000 1000 10 %s\n' "$1" | desk play - 2> said | head -n 1; }
  $ script node=10000000+10000000+1000+10000000
  draft 1 version 0
  $ script node=0+0+1001+0
  refused: line 2 BadOverhead
  $ script node=0+0+0+10000001
  refused: line 2 BadOverhead
  $ script node=0+0+0
  refused: BadLine 2
  $ script irq=100:100+10000000:0+100:0+100:0+100:0+100:0+100:0+100:0
  draft 1 version 0
  $ script irq=100:0+100:0+100:0+100:0+100:0+100:0+100:0+100:0+100:0
  refused: line 2 BadInterrupt
  $ script irq=100:101
  refused: line 2 BadInterrupt
  $ script irq=99:0
  refused: line 2 BadInterrupt
  $ script irq=10000001:0
  refused: line 2 BadInterrupt
  $ script irq=
  refused: BadLine 2
  $ script 'irq=100:0 node=0+0+0+0'
  refused: BadLine 2

What a change does: who touches the node or an interrupt touches no task.

  $ desk diff examples/shared-lock.toml $set
  admitted 3
  was admitted 3
  node job 0 20 lock 0 2 release 0 5 late 0 15
  interrupt 1 period - 4000 cost - 17
  slower lo level 1 1 bound 27000 27262 slack 73000 72738
  slower mid level 2 2 bound 7000 7098 slack 13000 12902
  slower hi level 3 3 bound 5000 5083 slack 5000 4917
  $ sed 's/^cost = 17/cost = 18/' $set | desk diff $set -
  admitted 3
  was admitted 3
  interrupt 1 cost 17 18
  slower lo level 1 1 bound 27262 27269 slack 72738 72731
  slower mid level 2 2 bound 7098 7100 slack 12902 12900
  slower hi level 3 3 bound 5083 5085 slack 4917 4915

A run has neither timers nor ticks. The worst case of hi, 15 late, lo in its section since one tick: 4001 and 1017, and 15.

  $ desk worst $set | tee worst
  # hi 5033 of 5083
  until 10101
  0 lo
  101 hi 15
  $ desk simulate $set worst --tasks
  task lo 0 - 27262
  task mid 0 - 7098
  task hi 1 5033 5083
  $ printf 'until 30000\n0 lo\n' | desk simulate $set -
  0 20017 lo
  job lo 0 20017

A timer takes of whoever executes what `job` has of it for its own task: x alone takes 530 either way. Below x it takes 30 of
x, too, where `job` would be y's matter:

  $ x='[[task]]\nname = "x"\nweight = 1\nperiod = 1000\ndeadline = 1000\ncost = 500\n'
  $ y='[[task]]\nname = "y"\nperiod = 10000\ndeadline = 10000\ncost = 100\n'
  $ printf "node = { job = 30 }\n$x" | desk admit -
  admitted 1
  1 x 530
  $ printf "node = { job = 30, release = 30 }\n$x" | desk admit -
  admitted 1
  1 x 530
  $ printf "node = { job = 30 }\n$x$y" | desk admit -
  admitted 2
  1 y 660
  2 x 530
  $ printf "node = { job = 30, release = 30 }\n$x$y" | desk admit -
  admitted 2
  1 y 660
  2 x 560

Interrupts alone refuse a set: 9990 and a tick of 17 are past 10000. In a run nobody sees that.

  $ printf 'interrupt = [{ period = 4000, cost = 17 }]\n[[task]]\nname = "x"\nperiod = 10000\ndeadline = 10000\ncost = 9990\n' > full.toml
  $ desk explain full.toml
  infeasible x
  conflict x
  x 10007 of 10000
    cost 9990
    interrupt 1 1 jobs 17
  load 1003250
  1 x misses 10000 needs 10007
    cost 9990
    interrupt 1 1 jobs 17
  [3]
  $ desk certify full.toml
  desk-certificate 4
  none 1
  member x 1 10007
  end
  [3]
  $ desk limits full.toml
  infeasible x
  x cost 9990 - 9949
  x deadline 10000 - 10041 with period 10041
  interrupt 1 cost 17 - 3
  all - 995 x
  [3]
  $ desk worst full.toml
  # x within-interrupts
  thread x 1
  until 10000
  0 x
  [3]
  $ desk worst full.toml | desk draw full.toml - 2> told | grep -o 'until.*alone'
  until 10 ms, timers and interrupts in the bounds alone
  $ sed 's/= 17/= 10/' full.toml | desk admit -
  infeasible x
  [3]
  $ sed 's/= 17/= 3/' full.toml | desk admit -
  admitted 1
  1 x 9999

A number that leaves nothing of the task's own mends nothing: with its cost at most 20, all of it the node's, x would pass.
Half of what the node takes mends it, too.

  $ printf 'node = { job = 20 }\n[[task]]\nname = "x"\nperiod = 1000\ndeadline = 20\ncost = 10\n' | desk limits -
  infeasible x
  x deadline 20 - 30
  node job 20 - 10
  all - 666 x
  [3]

The factor is of timers and interrupts, too: 600 in 10000, 5100 in 10000.

  $ task='[[task]]\nname = "x"\nperiod = 10000\ndeadline = 10000\ncost = 100\n'
  $ printf "node = { job = 500, release = 500 }\n$task" | desk limits - | tail -n 1
  all 16666 16666 x
  $ printf "interrupt = [{ period = 100, cost = 50 }]\n$task" | desk limits - | tail -n 1
  all 1960 1960 x

Interrupts stand in any of a set's documents, in their order, at most 8 in all, and several at a time. An interrupt of 0 has
no line.

  $ mkdir teams
  $ printf "interrupt = [{ cost = 1, period = 1000 }]\n$x" > teams/one.toml
  $ printf "[[interrupt]]\ncost = 0\nperiod = 100\n[[interrupt]]\ncost = 2\nperiod = 500\n$y" > teams/two.toml
  $ desk explain teams
  admitted 2
  1 y 605 of 10000 team two
    cost 100
    above x 1 jobs 500 team one
    interrupt 1 1 jobs 1
    interrupt 3 2 jobs 4
  2 x 505 of 1000 team one
    cost 500
    interrupt 1 1 jobs 1
    interrupt 3 2 jobs 4
  load 515000
  $ desk script teams 1 | grep irq
  put 1 y 0 10000 10000 100 irq=1000:1+100:0+500:2
  $ for i in 1 2 3 4 5; do printf '[[interrupt]]\ncost = 0\nperiod = 100\n' >> teams/three.toml; done
  $ desk admit teams | head -n 1
  admitted 2
  $ printf '[[interrupt]]\ncost = 0\nperiod = 100\n' >> teams/three.toml
  $ desk admit teams 2> said
  refused: TooManyInterrupts
  [4]
  $ cat said
  teams: the documents have more than 8 interrupts together
  $ printf '[[interrupt]]\ncost = 101\nperiod = 100\n' >> teams/three.toml
  $ desk admit teams 2> said
  refused: team three BadInterrupt 7
  [4]

Refused:

  $ refused() { printf "$1" > wrong.toml; desk admit wrong.toml 2> said; }
  $ refused '[node]\nrelease = 1.5\n'
  refused: WrongKind 0 0 release
  [4]
  $ refused '[node]\nlate = ""\nrelease = []\n'
  refused: WrongKind 0 0 release
  [4]
  $ refused '[node]\nrelease = 2000\nlate = ""\n'
  refused: WrongKind 0 0 late
  [4]
  $ refused '[node]\njob = 1000\nrelease = 1000\n'
  admitted 0
  $ refused '[node]\njob = 1001\nrelease = 1001\n'
  refused: BadOverhead release
  [4]
  $ refused '[node]\njob = 23\nrelease = 24\n'
  refused: BadOverhead release
  [4]
  $ refused '[node]\njob = 10000001\nlock = 10000001\nrelease = 1001\nlate = 10000001\n'
  refused: BadOverhead job
  [4]
  $ refused '[node]\njob = 10000000\nlock = 10000001\nrelease = 1001\nlate = 10000001\n'
  refused: BadOverhead lock
  [4]
  $ refused '[node]\njob = 10000000\nlock = 10000000\nrelease = 1000\nlate = 10000001\n'
  refused: BadOverhead late
  [4]
  $ refused 'interrupt = 1\nnode.late = 10000001\n'
  refused: BadOverhead late
  [4]
  $ refused 'interrupt = 1\n[[task]]\n'
  refused: WrongKind 0 0 interrupt
  [4]
  $ refused 'interrupt = [{ period = 100, cost = 1 }, 1]\n'
  refused: WrongKind 0 0 interrupt
  [4]
  $ refused '[interrupt]\nperiod = 100\ncost = 1\n'
  refused: WrongKind 0 0 interrupt
  [4]
  $ for it in '' 'period = 100' 'cost = 1' 'period = 99, cost = 0' 'period = 100, cost = 101' 'period = 10000001, cost = 1' 'period = 100, cost = -1' 'period = 100, cost = 1.0' 'period = 100, cost = 1, x = 1'; do refused "interrupt = [{ period = 10000000, cost = 10000000 }, { $it }]\n[[task]]\n"; done
  refused: BadInterrupt 2
  refused: BadInterrupt 2
  refused: BadInterrupt 2
  refused: BadInterrupt 2
  refused: BadInterrupt 2
  refused: BadInterrupt 2
  refused: BadInterrupt 2
  refused: BadInterrupt 2
  refused: BadInterrupt 2
  [4]
  $ eight='{ period = 100, cost = 1 }, { period = 100, cost = 1 }, { period = 100, cost = 1 }, { period = 100, cost = 1 }, { period = 100, cost = 1 }, { period = 100, cost = 1 }, { period = 100, cost = 1 }, { period = 100, cost = 1 }'
  $ refused "interrupt = [$eight]\n"
  admitted 0
  $ refused "interrupt = [$eight, { period = 100, cost = 1 }]\n[[task]]\n"
  refused: TooManyInterrupts
  [4]
  $ refused "interrupt = [$eight, { period = 100, cost = 101 }]\n"
  refused: BadInterrupt 9
  [4]
  $ refused 'interrupt = []\n'
  admitted 0

Sentences:

  $ refused '[node]\nlate = 10000001\n' > /dev/null || cat said
  wrong.toml: late has to be at most 10000000; it is 10000001
  $ refused '[node]\njob = 23\nrelease = 24\n' > /dev/null || cat said
  wrong.toml: release has to be at most 1000 and at most job; it is 24, job 23
  $ refused '[interrupt]\nperiod = 100\ncost = 1\n' > /dev/null || cat said
  wrong.toml: interrupt has to be an array of tables, each headed by [[interrupt]]; it is a single table
  $ refused 'interrupt = [{ period = 100, cost = 1 }, { period = 99, cost = 1 }]\n' > /dev/null || cat said
  wrong.toml: interrupt 2: period has to be from 100 to 10000000, and cost at most period; period is 99, cost is 1
  $ refused '[[interrupt]]\nperiod = 100\ncost = 1.0\n' > /dev/null || cat said
  wrong.toml: interrupt 1: cost has to be a whole number of microseconds from 0, without quotes; it is a number with a fraction
  $ refused '[[interrupt]]\nperiod = "4ms"\ncost = 1\n' > /dev/null || cat said
  wrong.toml: interrupt 1: period has to be a whole number of microseconds from 0, without quotes; it is the string "4ms"
  $ refused '[[interrupt]]\nperiod = 100\ncost = -1\n' > /dev/null || cat said
  wrong.toml: interrupt 1: cost has to be a whole number of microseconds from 0, without quotes; it is -1
  $ refused '[[interrupt]]\nperiod = 100\n' > /dev/null || cat said
  wrong.toml: interrupt 1: no key cost; an interrupt needs period, cost
  $ refused '[[interrupt]]\nperiod = 100\nof = 1\n' > /dev/null || cat said
  wrong.toml: interrupt 1: unknown key of; an interrupt has period, cost
  $ refused "interrupt = [$eight, { period = 100, cost = 1 }]\n" > /dev/null || cat said
  wrong.toml: more than 8 interrupts: there are 9

A padded cost has room for the timer of its own job, too:

  $ refused '[node]\njob = 500\nrelease = 500\n[[task]]\nname = "a"\nperiod = 1000\ndeadline = 1000\ncost = 500\n'
  admitted 1
  1 a 1000
  $ refused '[node]\njob = 501\nrelease = 501\n[[task]]\nname = "a"\nperiod = 1000\ndeadline = 1000\ncost = 500\n'
  refused: PaddedCost a
  [4]
