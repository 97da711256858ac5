`desk simulate SET RELEASES` runs the admitted set, at the levels of the best order, in the simulated kernel. It prints
each slice, then each job with its finish. `run` takes the releases, `task` gives a set of one task:

  $ run() { printf "$2" | desk simulate $1 -; }
  $ task() { echo "task = [{ name = 'x', period = $1, deadline = $1, cost = $2 }]"; }
  $ task 10000 1000 > 1000-in-10000.toml

What is printed
---------------

lo holds the lock when hi is released, and runs on to the end of its section. hi's response is 4499, its bound 4500:

  $ desk simulate examples/blocked-out-repaired.toml examples/holder-runs-on.releases
  0 3500 lo
  3500 5500 hi
  5500 12000 lo
  job lo 0 12000
  job hi 1001 5500

Released before lo takes the lock, hi preempts it:

  $ desk simulate examples/blocked-out-repaired.toml examples/released-before-the-lock.releases
  0 1000 lo
  1000 3000 hi
  3000 12000 lo
  job lo 0 12000
  job hi 1000 3000

lo takes the lock at 100, so mid waits until 4100, and hi goes before mid:

  $ desk simulate examples/shared-lock.toml examples/shared-lock.releases
  0 4100 lo
  4100 5100 hi
  5100 7100 mid
  7100 23000 lo
  job lo 0 23000
  job mid 200 7100
  job hi 300 5100

Released at 101, right after lo has taken the lock, hi and mid stay one below their bounds of 5000 and 7000. At 100 lo
hasn't, and hi preempts it:

  $ run examples/shared-lock.toml 'until 100000\n0 lo\n101 mid\n101 hi\n'
  0 4100 lo
  4100 5100 hi
  5100 7100 mid
  7100 23000 lo
  job lo 0 23000
  job mid 101 7100
  job hi 101 5100
  $ run examples/shared-lock.toml 'until 100000\n0 lo\n100 mid\n100 hi\n'
  0 100 lo
  100 1100 hi
  1100 3100 mid
  3100 23000 lo
  job lo 0 23000
  job mid 100 3100
  job hi 100 1100

The greatest responses of hi and mid for releases from 90 to 110, and by hundreds to 5000:

  $ for at in $(seq 90 110) $(seq 0 100 5000); do
  >   run examples/shared-lock.toml "until 100000\n0 lo\n$at mid\n$at hi\n"
  > done > traces
  $ greatest() {
  >   grep "^job $1 " traces | while read job name release finish; do
  >     echo $((finish - release))
  >   done | sort -n | tail -n 1
  > }
  $ greatest hi
  4999
  $ greatest mid
  6999

y above x fills what x leaves; a job that finishes at the end of the run has a finish:

  $ cat > fills.toml << END
  > task = [
  >   { name = "x", period = 1000, deadline = 1000, cost = 600 },
  >   { name = "y", period = 1000, deadline = 1000, cost = 400 },
  > ]
  > END
  $ run fills.toml 'until 2000\n0 x\n0 y\n1000 x\n1000 y\n'
  0 400 y
  400 1000 x
  1000 1400 y
  1400 2000 x
  job x 0 1000
  job y 0 400
  job x 1000 2000
  job y 1000 1400

A finish at `until`, and one tick too late for it; jobs that follow one another are slices of their own; nothing runs
between them where there is time between them:

  $ run examples/fills-its-period.toml 'until 1000\n0 x\n'
  0 1000 x
  job x 0 1000
  $ run examples/fills-its-period.toml 'until 999\n0 x\n'
  0 999 x
  job x 0 -
  $ run examples/fills-its-period.toml 'until 2000\n0 x\n1000 x\n'
  0 1000 x
  1000 2000 x
  job x 0 1000
  job x 1000 2000
  $ run 1000-in-10000.toml 'until 20000\n0 x\n10000 x\n'
  0 1000 x
  10000 11000 x
  job x 0 1000
  job x 10000 11000

No releases:

  $ run examples/three-tasks.toml 'until 0\n'
  $ run examples/empty-set.toml 'until 60000000\n'

An infeasible set isn't run:

  $ run examples/blocked-out.toml 'until 20000\n0 lo\n'
  infeasible hi
  [3]

Many releases: 6,000 in 60 seconds, and as many as a run takes:

  $ { echo until 60000000; for k in $(seq 0 5999); do echo $((k * 10000)) x; done; } > 6000.releases
  $ desk simulate 1000-in-10000.toml 6000.releases > 6000.trace
  $ sed -n '1,2p;11999,$p' 6000.trace
  0 1000 x
  10000 11000 x
  job x 59980000 59981000
  job x 59990000 59991000
  $ task 1000 1 > 1-in-1000.toml
  $ { echo until 20000000; for k in $(seq 0 9999); do echo $((k * 1000)) x; done; } > 10000.releases
  $ desk simulate 1-in-1000.toml 10000.releases | tail -n 1
  job x 9999000 9999001

The text of a release list
--------------------------

Empty lines and lines that begin with # are skipped and counted, whatever bytes they hold; the last line may lack its
line end:

  $ run examples/blocked-out-repaired.toml '# m is held\n\nuntil 20000\n0 lo\n1001 hi'
  0 3500 lo
  3500 5500 hi
  5500 12000 lo
  job lo 0 12000
  job hi 1001 5500
  $ run examples/empty-set.toml '# \377\000\r\nuntil 0'
  $ run examples/blocked-out-repaired.toml '# m is held\n\nuntil 20000\n0  lo\n'
  refused: BadLine 4
  [4]

Without its line `until` a list is bad at one more than the number of lines:

  $ run examples/blocked-out-repaired.toml ''
  refused: BadLine 1
  [4]
  $ run examples/blocked-out-repaired.toml '# c\n'
  refused: BadLine 2
  [4]
  $ run examples/blocked-out-repaired.toml '# c'
  refused: BadLine 2
  [4]

Any other line:

  $ run examples/blocked-out-repaired.toml '0 lo\n'
  refused: BadLine 1
  [4]
  $ run examples/blocked-out-repaired.toml 'until 20000\nuntil 20000\n'
  refused: BadLine 2
  [4]
  $ run examples/blocked-out-repaired.toml 'until 020000\n'
  refused: BadLine 1
  [4]
  $ run examples/blocked-out-repaired.toml 'until 10000000000\n'
  refused: BadLine 1
  [4]
  $ run examples/blocked-out-repaired.toml 'until 20000\n0 lo\r\n'
  refused: BadLine 2
  [4]
  $ run examples/blocked-out-repaired.toml 'until 20000\n0 lo \n'
  refused: BadLine 2
  [4]
  $ run examples/blocked-out-repaired.toml 'until 20000\n-1 lo\n'
  refused: BadLine 2
  [4]
  $ run examples/blocked-out-repaired.toml 'until 20000\n0 9x\n'
  refused: BadLine 2
  [4]
  $ run examples/blocked-out-repaired.toml 'until 20000\n0\tlo\n'
  refused: BadLine 2
  [4]

Refusals of a release list
--------------------------

  $ run examples/blocked-out-repaired.toml 'until 20000\n5 lo\n4 hi\n'
  refused: Unsorted 2
  [4]
  $ run examples/blocked-out-repaired.toml 'until 20000\n5 z\n'
  refused: UnknownTask 1
  [4]
  $ run 1000-in-10000.toml 'until 20000\n0 x\n9999 x\n'
  refused: TooSoon 2
  [4]
  $ run examples/fills-its-period.toml 'until 20000\n0 x\n999 x\n'
  refused: TooSoon 2
  [4]
  $ run examples/fills-its-period.toml 'until 60000001\n0 x\n'
  refused: PastHorizon
  [4]
  $ run examples/fills-its-period.toml 'until 20000\n20000 x\n'
  refused: PastHorizon
  [4]
  $ { cat 10000.releases; echo 10000000 x; } | desk simulate 1-in-1000.toml -
  refused: TooMany
  [4]

Which refusal comes first
-------------------------

The set's, then the list's text, then that no order passes, then each refusal of the list over the whole of it:

  $ echo 'x = 1' > faulty.toml
  $ run faulty.toml '0 lo\n'
  refused: UnknownKey 0 0
  [4]
  $ run examples/blocked-out.toml ''
  refused: BadLine 1
  [4]
  $ run examples/blocked-out.toml '0 lo\n'
  refused: BadLine 1
  [4]
  $ run examples/blocked-out.toml 'until 20000\n5 z\n4 z\n'
  infeasible hi
  [3]
  $ run examples/blocked-out-repaired.toml 'until 20000\n5 lo\n4 z\n'
  refused: Unsorted 2
  [4]
  $ run examples/blocked-out-repaired.toml 'until 4\n4 lo\n5 lo\n6 z\n'
  refused: UnknownTask 3
  [4]
  $ run examples/blocked-out-repaired.toml 'until 4\n4 lo\n5 lo\n'
  refused: TooSoon 2
  [4]
  $ sed 's/20000000/5000000/' 10000.releases > past.releases
  $ { cat past.releases; echo 10000000 x; } | desk simulate 1-in-1000.toml -
  refused: PastHorizon
  [4]

An order in front of the list
-----------------------------

Settings in front of `until` give the order, which need not pass; of a set that no order passes, too. hi is done past its
deadline of 4400, and has no bound:

  $ run examples/blocked-out.toml 'thread lo 1\nthread hi 2\nmutex m 2\nuntil 12000\n0 lo\n1001 hi\n'
  0 3500 lo
  3500 5500 hi
  5500 12000 lo
  job lo 0 12000
  job hi 1001 5500
  $ run examples/blocked-out.toml 'thread hi 9\nuntil 12000\n0 lo\n'
  refused: MissingTask lo
  [4]
  $ run examples/blocked-out.toml 'thread lo 1\n# hi above\n\nthread hi 9\nuntil 12000\n0 lo\n1001 hi\n' | tail -n 1
  job hi 1001 5500
  $ printf 'thread lo 1\nthread hi 2\nuntil 12000\n0 lo\n1001 hi\n' | desk simulate examples/blocked-out.toml - --tasks
  task lo 1 12000 14000
  task hi 1 4499 -

Of a set that is admitted the best order may be given, or another one: lo above the others:

  $ desk settings examples/shared-lock.toml > best
  $ cat best examples/shared-lock.releases | desk simulate examples/shared-lock.toml - > given
  $ desk simulate examples/shared-lock.toml examples/shared-lock.releases | cmp - given
  $ cat best examples/shared-lock.releases | desk simulate examples/shared-lock.toml - --tasks > given
  $ desk simulate examples/shared-lock.toml examples/shared-lock.releases --tasks | cmp - given
  $ run examples/shared-lock.toml 'thread hi 1\nthread mid 2\nthread lo 3\nuntil 30000\n0 lo\n100 hi\n'
  0 20000 lo
  20000 21000 hi
  job lo 0 20000
  job hi 100 21000

Where a job overruns the one before it, the run ends there, with the jobs that are ready before:

  $ run examples/shared-lock.toml 'thread hi 1\nthread mid 2\nthread lo 3\nuntil 30000\n0 lo\n100 hi\n10100 hi\n'
  0 10100 lo
  job lo 0 -
  job hi 100 -
  (on standard error) note: the run ends where a job of hi is ready and the one before it isn't done

Settings and their faults are those of `judge`, lines counted in the whole. Faulty lines come first, then the settings, then
the refusals of the releases:

  $ run examples/blocked-out.toml 'thread lo 1\nthread hi 1\nuntil 9\n'
  refused: SameNumber 2
  [4]
  $ run examples/blocked-out.toml '# one\nthread lo 1\nthread hi 2\nmutex m 1\nuntil 9\n9 z\n'
  refused: WrongCeiling m
  [4]
  $ run examples/blocked-out.toml 'thread z 1\nuntil 9\n9\n'
  refused: BadLine 3
  [4]
  $ run examples/blocked-out.toml 'thread lo\nuntil 9\n9\n'
  refused: BadLine 1
  [4]
  $ run examples/blocked-out.toml 'thread lo 1\nthread hi 2\n'
  refused: BadLine 3
  [4]
  $ run examples/blocked-out.toml 'thread lo 1\nthread hi 2\nuntil 9\n9 z\n'
  refused: UnknownTask 1
  [4]
  $ run examples/blocked-out.toml 'threads lo 1\nuntil 9\n'
  refused: BadLine 1
  [4]
