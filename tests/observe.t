`desk observe SET TRACE` says what a trace of a node shows of each task, and which of its promises a job breaks. Its lines
are those that `simulate` prints. Of shared-lock.toml the order is lo mid hi, with blocking 0, 4000 and 4000 and bounds
27000, 7000 and 5000; `observed` takes a trace of it, in which some task may have no job.

  $ observed() { printf "$1" | desk observe examples/shared-lock.toml - --jobless $2 $3; }

What `simulate` prints of a set that is admitted breaks nothing:

  $ desk simulate examples/shared-lock.toml examples/shared-lock.releases | desk observe examples/shared-lock.toml -
  task lo 1 20000 20000 - 100000 23000 27000
  task mid 1 2000 2000 - 20000 6900 7000
  task hi 1 1000 1000 - 10000 4800 5000
  $ for set in three-tasks three-tasks-weighted jitter watchdog own-order fills-its-period blocked-out-repaired demand-of-the-deadline robot-mended; do for list in '' '--seed 1' '--seed 2'; do desk releases examples/$set.toml 200000 $list | desk simulate examples/$set.toml - | desk observe examples/$set.toml - > shown || echo $set $?; grep -v '^task ' shown; done; done
  [1]

A mutex without a protocol: mid executes while hi waits for the lock that lo holds:

  $ desk observe examples/shared-lock.toml examples/shared-lock.trace
  task lo 1 20000 20000 - 100000 23000 27000
  task mid 1 2000 2000 - 20000 2000 7000
  task hi 1 1000 1000 - 10000 6900 5000
  blocked hi 200 5900 of 4000 by lo 3900, mid 2000
  bound hi 200 6900 of 5000 after blocked hi 200
  [3]

A job past its cost, by one microsecond; and where one is allowed:

  $ observed '0 1001 hi\njob hi 0 1001\n'
  task lo 0 0 20000 - 100000 - 27000
  task mid 0 0 2000 - 20000 - 7000
  task hi 1 1001 1000 - 10000 1001 5000
  cost hi 0 1001 of 1000
  [3]
  $ observed '0 1001 hi\njob hi 0 1001\n' --tolerance 1
  task lo 0 0 20000 - 100000 - 27000
  task mid 0 0 2000 - 20000 - 7000
  task hi 1 1001 1000 - 10000 1001 5000

An arrival too soon after the one before it, with a job of another task between; the jobs' lines may stand anywhere:

  $ observed 'job hi 0 1000\n0 1000 hi\njob mid 5000 7000\njob hi 9999 10999\n5000 7000 mid\n9999 10999 hi\n'
  task lo 0 0 20000 - 100000 - 27000
  task mid 1 2000 2000 - 20000 2000 7000
  task hi 2 1000 1000 9999 10000 1000 5000
  period hi 9999 9999 of 10000
  [3]

A section longer than its sheet says, for which hi waits too long:

  $ observed '0 4101 lo\n4101 5101 hi\n5101 21000 lo\njob lo 0 21000\njob hi 100 5101\n'
  task lo 1 20000 20000 - 100000 21000 27000
  task mid 0 0 2000 - 20000 - 7000
  task hi 1 1000 1000 - 10000 5001 5000
  blocked hi 100 4001 of 4000 by lo 4001
  bound hi 100 5001 of 5000 after blocked hi 100
  [3]

Each that executed below it is named, the longest first, of equals the lowest; not who did so before it waited, nor a task above:

  $ cat > below.toml <<'END'
  > task = [
  >   { name = "top", period = 9000, deadline = 9000, cost = 500, weight = 4 },
  >   { name = "hi", period = 10000, deadline = 10000, cost = 1000, weight = 3 },
  >   { name = "mid", period = 20000, deadline = 20000, cost = 500, weight = 2 },
  >   { name = "low", period = 50000, deadline = 50000, cost = 500, weight = 1 },
  >   { name = "bg", period = 100000, deadline = 100000, cost = 7000, weight = 0 },
  > ]
  > END
  $ below() { printf "$1job hi 100 9000\njob mid 100 9000\njob low 100 9000\njob top 100 9000\n" | desk observe below.toml - --jobless $2 $3 | grep ^blocked; }
  $ below 'job bg 0 -\n0 1100 bg\n1100 1200 low\n1200 1500 top\n1500 1600 mid\n1600 1700 bg\n1700 1850 low\n1850 2850 hi\n2850 2950 mid\n'
  blocked hi 100 1550 of 0 by bg 1100, low 250, mid 200
  blocked mid 100 1350 of 0 by bg 1100, low 250
  blocked low 100 1100 of 0 by bg 1100
  blocked top 100 2550 of 0 by bg 1100, hi 1000, low 250, mid 200
  $ below '100 300 mid\n300 500 low\n' --tolerance 399
  blocked hi 100 400 of 0 by low 200, mid 200
  blocked top 100 400 of 0 by low 200, mid 200

A job that isn't done when the trace ends, its bound past; until then it may be open:

  $ observed '0 500 hi\njob hi 0 -\njob irq 5000 -\n' --tolerance 4500
  task lo 0 0 20000 - 100000 - 27000
  task mid 0 0 2000 - 20000 - 7000
  task hi 1 500 1000 - 10000 - 5000
  $ observed '0 500 hi\njob hi 0 -\njob irq 5001 -\n' | grep open
  open hi 0 after idle hi 0

A thread of the node's own, while hi waits; what it executes later delays nobody:

  $ observed '0 400 hi\n400 430 irq/9\n430 1030 hi\n2000 3000 irq/9\njob hi 0 1030\n'
  refused: BadLine 2
  [4]
  $ observed '0 400 hi\n400 430 irq_9\n430 1030 hi\n2000 3000 irq_9\njob hi 0 1030\n'
  task lo 0 0 20000 - 100000 - 27000
  task mid 0 0 2000 - 20000 - 7000
  task hi 1 1000 1000 - 10000 1030 5000
  foreign hi 0 30 by irq_9
  [3]

Nobody executes while hi waits:

  $ observed '0 400 hi\n450 1050 hi\njob hi 0 1050\n'
  task lo 0 0 20000 - 100000 - 27000
  task mid 0 0 2000 - 20000 - 7000
  task hi 1 1000 1000 - 10000 1050 5000
  idle hi 0 50
  [3]

What timers and interrupts may take is allowed: in a job's execution, while it waits, and of nobody and of other threads
together; a microsecond more isn't:

  $ cat > taken.toml <<'END'
  > node = { job = 30, lock = 5, release = 20 }
  > interrupt = [{ period = 5000, cost = 100 }]
  > [[task]]
  > name = "hi"
  > period = 10000
  > deadline = 3000
  > cost = 1000
  > section = [{ locks = ["m"], len = 100 }]
  > [[task]]
  > name = "lo"
  > period = 100000
  > deadline = 90000
  > cost = 5000
  > section = [{ locks = ["m"], len = 400 }]
  > END
  $ taken() { printf "$1" | desk observe taken.toml - --jobless; }
  $ taken '0 1155 hi\njob hi 0 1155\n'
  task lo 0 0 5015 - 100000 - 6270
  task hi 1 1155 1015 - 10000 1155 1560
  $ taken '0 1156 hi\njob hi 0 1156\n' | grep -v task
  cost hi 0 1156 of 1155
  $ taken '0 545 lo\n545 1560 hi\njob hi 0 1560\njob lo 0 -\n' | grep -v task
  [1]
  $ taken '0 546 lo\n546 1561 hi\njob hi 0 1561\njob lo 0 -\n' | grep -v task
  blocked hi 0 546 of 545 by lo 546
  bound hi 0 1561 of 1560 after blocked hi 0
  $ taken '0 500 hi\n540 600 irq\n640 1155 hi\njob hi 0 1155\n' | grep -v task
  [1]
  $ taken '0 500 hi\n541 601 irq\n641 1156 hi\njob hi 0 1156\n' | grep -v task
  idle hi 0 81 of 80
  $ taken '0 500 hi\n500 641 irq\n641 1156 hi\njob hi 0 1156\n' | grep -v task
  foreign hi 0 141 of 140 by irq

A task that may be late waits for sure from the end of its jitter on:

  $ printf '1000 4000 a\njob a 0 4000\n' | desk observe examples/jitter.toml - | grep ' a '
  task a 1 3000 3000 - 7000 4000 7000
  $ printf '1001 4001 a\njob a 0 4001\n' | desk observe examples/jitter.toml - | grep ' a '
  task a 1 3000 3000 - 7000 4001 7000
  idle a 0 1

A job may say when it was ready: later than its jitter, or it waits for sure from then on. With that its arrival is exact:

  $ printf '1200 4200 a\njob a 0 4200 1200\n' | desk observe examples/jitter.toml - | grep ' a '
  task a 1 3000 3000 - 7000 4200 7000
  late a 0 1200 of 1000
  $ printf '300 3000 a\n3010 3310 a\njob a 0 3310 300\n' | desk observe examples/jitter.toml - | grep ' a '
  task a 1 3000 3000 - 7000 3310 7000
  idle a 0 10
  $ printf '0 3000 a\n6000 9000 a\njob a 0 3000\njob a 6000 9000\n' | desk observe examples/jitter.toml - --jobless | grep -v task
  [1]
  $ printf '0 3000 a\n6000 9000 a\njob a 0 3000 0\njob a 6000 9000\n' | desk observe examples/jitter.toml - --jobless | grep -v task
  period a 6000 6000 of 7000
  $ for text in 'job hi 5 9 4' 'job hi 5 9 10' 'job hi 5 - x' 'job hi 5 9 9 9' '0 10 hi 9' '0 10 hi @' '0 10 hi @-1'; do observed "$text\n" 2> /dev/null; done | uniq -c | sed 's/^ *//'
  7 refused: BadLine 1

A slice may say at which priority it ran: at its thread's, which are the levels where no settings stand in front, or the
ceiling of a lock of its task, as lo's and hi's m. A priority between is none, nor is one below; the first of a job is said, and
what follows from it behind all else:

  $ observed '0 500 lo @1\n500 600 lo @3\n600 900 hi @3\n900 1000 mid @2\n1000 1100 irq @99\njob lo 0 -\njob hi 600 900\njob mid 900 1000\n' | grep -v task
  foreign lo 0 100 by irq
  $ observed '0 500 lo @1\n500 600 lo @2\n600 700 lo @0\njob lo 0 -\n' | grep -v task
  priority lo 0 2 of 1
  $ observed '0 5000 lo @1\n5000 7000 mid @3\n7000 8000 hi @2\njob lo 0 -\njob hi 900 8000\njob mid 5000 7000\n' | grep -v task
  priority hi 900 2 of 3
  priority mid 5000 3 of 2
  blocked hi 900 6100 of 4000 by lo 4100, mid 2000 after priority hi 900
  bound hi 900 7100 of 5000 after priority hi 900
  $ observed 'thread lo 10\nthread mid 20\nthread hi 30\n0 500 lo @10\n500 600 lo @30\n600 700 hi @3\njob lo 0 -\njob hi 600 700\n' | grep -v task
  priority hi 600 3 of 30
  $ observed '0 10 lo @1\njob lo 0 -\n10 20 hi @3\njob hi 10 20\n20 30 mid @3\njob mid 20 30\n' --tolerance 60000000 | grep -v task
  priority mid 20 3 of 2

A job above that executes too long, arrives too soon or is ready too late delays those below, which are blocked by none. Those
that it meets at no time it doesn't delay, nor those above it:

  $ observed '0 9000 hi\n9000 11000 mid\njob hi 0 9000\njob mid 100 11000\n' | grep -v task
  cost hi 0 9000 of 1000
  bound hi 0 9000 of 5000 after cost hi 0
  bound mid 100 10900 of 7000 after cost hi 0
  $ observed '0 1000 hi\n1000 4000 mid\n4000 5000 hi\n8000 9000 mid\njob hi 0 1000\njob mid 1000 9000\njob hi 4000 5000\n' | grep -v task
  cost mid 1000 4000 of 2000
  period hi 4000 4000 of 10000
  idle mid 1000 3000
  bound mid 1000 8000 of 7000 after cost mid 1000
  $ observed '0 1001 hi\n1001 8300 lo\n8300 10300 mid\njob hi 0 1001\njob lo 1001 -\njob mid 1001 10300\n' | grep -v task
  cost hi 0 1001 of 1000
  blocked mid 1001 7299 of 4000 by lo 7299
  bound mid 1001 9299 of 7000 after blocked mid 1001

An overrun shows why others wait for no longer than it lasts: one of a microsecond not for 7 ms in which nobody executed, nor
one of 100 for 500 in which lo executed too long, but one of 600:

  $ observed '0 1001 hi\n1001 2001 mid\n9001 10001 mid\njob hi 0 1001\njob mid 0 10001\n' | grep -v task
  cost hi 0 1001 of 1000
  idle mid 0 7000
  bound mid 0 10001 of 7000 after idle mid 0
  $ observed '0 20100 lo\n20100 21100 hi\njob lo 0 20100\njob hi 15600 21100\n' | grep -v task
  cost lo 0 20100 of 20000
  blocked hi 15600 4500 of 4000 by lo 4500
  bound hi 15600 5500 of 5000 after blocked hi 15600
  $ observed '0 20600 lo\n20600 21600 hi\njob lo 0 20600\njob hi 16100 21600\n' | grep -v task
  cost lo 0 20600 of 20000
  blocked hi 16100 4500 of 4000 by lo 4500 after cost lo 0
  bound hi 16100 5500 of 5000 after cost lo 0

A task without a job is named, unless this is meant; an empty trace is no yes:

  $ printf '0 1000 hi\njob hi 0 1000\n' | desk observe examples/shared-lock.toml -
  task lo 0 0 20000 - 100000 - 27000
  task mid 0 0 2000 - 20000 - 7000
  task hi 1 1000 1000 - 10000 1000 5000
  jobless lo
  jobless mid
  (on standard error) note: the trace has no job of lo, mid
  [3]
  $ desk observe examples/shared-lock.toml /dev/null 2> /dev/null | grep -v task
  jobless lo
  jobless mid
  jobless hi
  $ desk observe examples/shared-lock.toml /dev/null --jobless 2> /dev/null | grep -v task
  [1]

Where deadlines are preferred, another order may be the best:

  $ desk observe --prefer deadline examples/three-tasks-weighted.toml /dev/null --jobless > by-deadline
  $ desk admit --prefer deadline examples/three-tasks-weighted.toml | sed '1d; s/^[0-9]* \([^ ]*\) .*/\1/' > order
  $ sed 's/^task \([^ ]*\) .*/\1/' by-deadline | cmp - order

Of a set that no order serves nothing is promised:

  $ desk observe examples/cost-past-deadline.toml examples/shared-lock.trace
  infeasible x
  [3]

A trace may give the order that the node has, in the lines of `settings` in front. With mid above hi the bounds are other
ones, and a run that keeps to them breaks nothing, as it would in the set's best order:

  $ printf 'thread lo 10\nthread hi 20\nthread mid 30\n' > node.settings
  $ cat node.settings examples/shared-lock.releases | desk simulate examples/shared-lock.toml - > node.trace
  $ cat node.settings node.trace | desk observe examples/shared-lock.toml -
  task lo 1 20000 20000 - 100000 23000 27000
  task hi 1 1000 1000 - 10000 6800 7000
  task mid 1 2000 2000 - 20000 2000 2000
  $ desk observe examples/shared-lock.toml node.trace | grep -v task
  blocked hi 300 5800 of 4000 by lo 3900, mid 1900
  bound hi 300 6800 of 5000 after blocked hi 300
  $ { cat node.settings; echo '0 2001 mid'; echo 'job mid 0 2001'; } | desk observe examples/shared-lock.toml - --jobless
  task lo 0 0 20000 - 100000 - 27000
  task hi 0 0 1000 - 10000 - 7000
  task mid 1 2001 2000 - 20000 2001 2000
  cost mid 0 2001 of 2000
  bound mid 0 2001 of 2000 after cost mid 0
  [3]
  $ { cat node.settings; echo '0 2001 mid'; echo 'job mid 0 2001'; } | desk observe examples/shared-lock.toml - --jobless --tolerance 1 | grep -v task
  [1]

The best order may be given, too:

  $ desk settings examples/shared-lock.toml | cat - examples/shared-lock.trace | desk observe examples/shared-lock.toml - > given
  [3]
  $ desk observe examples/shared-lock.toml examples/shared-lock.trace | cmp - given

An order in which a task misses its deadline promises nothing, whatever was seen; of a set that no order passes, too:

  $ observed 'thread hi 1\nthread mid 2\nthread lo 3\n0 10 hi\n'
  misses mid hi
  1 hi misses 10000 needs 23000 at 1
  2 mid misses 20000 needs 22200 at 2
  3 lo 20200 of 100000 at 3
  [3]
  $ printf 'thread x 7\n' | desk observe examples/cost-past-deadline.toml -
  misses x
  1 x misses 2000 needs 3000 at 7
  [3]

Settings and their faults are those of `judge`, lines counted in the whole. What stands in the lines comes first, then the
settings, then slices in no job:

  $ observed '# one\nthread lo 1\n\nthread mid 1\nthread hi 3\n'
  refused: SameNumber 4
  [4]
  $ observed 'thread lo 1\nthread mid 2\nthread hi 3\nmutex m 2\n0 10 hi\n'
  refused: WrongCeiling m
  [4]
  $ observed 'thread lo 1\nthread mid 2\n0 10 hi\n'
  refused: MissingTask hi
  [4]
  $ observed 'thread z 1\n0 10 hi\n9 20 lo\n'
  refused: SliceOverlap 3
  [4]
  $ observed 'thread z\n0 10 hi\n9 20 lo\n5\n'
  refused: BadLine 1
  [4]
  $ observed 'thread z 1\n0 10 hi\n9 20 lo\n5\n'
  refused: BadLine 4
  [4]
  $ observed 'thread lo 1\nthread mid 2\nthread hi 3\n0 10 hi\n'
  refused: NoJob 4
  [4]
  $ observed 'thread lo 1\nthread mid 2\n0 10 hi\nthread hi 3\n'
  refused: BadLine 4
  [4]

Each refusal, with its line:

  $ for text in '5 5 lo' 'job lo 5 4' 'job lo 5' 'task lo 5 9' '0 10 lo ' '0 10' '+1 10 lo' '0 10000000000 lo'; do observed "$text\n" 2> /dev/null; done | uniq -c | sed 's/^ *//'
  8 refused: BadLine 1
  $ observed '# by hand\n\n0 10 hi\n9 20 lo\n'
  refused: SliceOverlap 4
  [4]
  $ observed 'job hi 5 9\njob lo 4 -\n'
  refused: JobUnsorted 2
  [4]
  $ observed '0 10 hi\njob hi 0 9\n'
  refused: NoJob 1
  [4]
  $ seq 0 99999 | sed 's/.*/job x & -/' | desk observe examples/shared-lock.toml - --jobless | grep -c .
  3
  $ desk observe examples/cost-past-deadline.toml - < examples/shared-lock.toml
  refused: BadLine 5
  [4]
  $ desk observe docs/FORMATS.md examples/shared-lock.trace
  refused: Syntax
  [4]

What the kernel recorded becomes a trace by examples/trace/from_ftrace.py (`tests/ftrace` has the spellings), as by `perf
sched script` of a run of examples/posix/measure.c, with a thread `foreign` above all:

  $ examples/trace/from_ftrace.py lo=lo mid=mid hi=hi < examples/trace/foreign.sched > foreign.trace
  (on standard error) note: line 1: the record doesn't show whether an interrupt or the thread that executes woke lo: taken as an arrival (and 2 more)
  $ desk observe examples/shared-lock.toml foreign.trace --tolerance 100
  task lo 1 20245 20000 - 100000 59359 27000
  task mid 1 2048 2000 - 20000 18280 7000
  task hi 1 1015 1000 - 10000 10228 5000
  cost lo 0 20245 of 20000
  foreign lo 0 36051 by foreign
  foreign hi 997 6009 by foreign
  foreign mid 999 12015 by foreign
  bound lo 0 59359 of 27000 after foreign lo 0
  bound hi 997 10228 of 5000 after foreign hi 997
  bound mid 999 18280 of 7000 after foreign mid 999
  [3]

A record in which something is wrong ends in a line that isn't one of a trace, so that what it shows isn't taken for all:

  $ sed 7d examples/trace/foreign.sched | examples/trace/from_ftrace.py lo=lo mid=mid hi=hi 2> /dev/null | desk observe examples/shared-lock.toml - --tolerance 100
  refused: BadLine 3
  [4]
  $ examples/trace/from_ftrace.py lo=lo mid=mid hi=hi < /dev/null
  refused by from_ftrace.py
  (on standard error) note: the record has no thread lo, mid, hi; it has none
  (on standard error) from_ftrace.py: the record has no event
  [3]
