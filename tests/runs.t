Runs that really happen: jobs that execute less than their cost, and random lists of them. `run` takes the releases, `early`
those in which lo runs as long as is said:

  $ run() { printf "$2" | desk simulate $1 -; }
  $ early() { run examples/shared-lock.toml "until 100000\n0 lo runs $1\n200 hi runs 1\n"; }

Jobs that execute less
----------------------

lo ends inside its section, and gives m back; the first hi executes for half of its cost:

  $ desk simulate examples/shared-lock.toml examples/early.releases
  0 2000 lo
  2000 2500 hi
  2500 4500 mid
  10300 11300 hi
  job lo 0 2000
  job mid 200 4500
  job hi 300 2500
  job hi 10300 11300

lo ends before its section, at its end, and a tick behind it; by its cost, which may be said:

  $ early 100
  0 100 lo
  200 201 hi
  job lo 0 100
  job hi 200 201
  $ early 4100
  0 4100 lo
  4100 4101 hi
  job lo 0 4100
  job hi 200 4101
  $ early 4101
  0 4100 lo
  4100 4101 hi
  4101 4102 lo
  job lo 0 4102
  job hi 200 4101
  $ early 20000 | tail -n 2
  job lo 0 20001
  job hi 200 4101

A job is late, and executes less:

  $ run examples/jitter.toml 'until 22000\n0 a 1000 runs 5\n'
  1000 1005 a
  job a 0 1005

Nothing, or more than the cost; which refusal comes first:

  $ early 0
  refused: OutsideCost 1
  [4]
  $ early 20001
  refused: OutsideCost 1
  [4]
  $ run examples/shared-lock.toml 'until 9\n0 lo\n1 mid runs 2001\n9 hi 1\n'
  refused: TooLate 3
  [4]
  $ run examples/shared-lock.toml 'until 9\n0 lo\n1 mid runs 2001\n9 hi\n'
  refused: OutsideCost 2
  [4]
  $ run examples/shared-lock.toml 'until 9\n0 lo\n1 mid runs 2000\n9 hi\n'
  refused: PastHorizon
  [4]

Lines that are none:

  $ for words in 'runs' 'runs x' 'runs 01' 'runs 1 0' '0 runs' '0 runs 1 1' 'Runs 1' 'runs  1' 'runs 10000000000'; do
  >   early "1\n100 mid $words"
  > done 2> errors | sort -u
  refused: BadLine 3

A job that ends early is drawn so:

  $ desk draw examples/shared-lock.toml examples/early.releases > run.svg
  $ grep -c '<title>lo: arrival 0, done 2000, response 2000, bound 27000, deadline 100000 us</title>' run.svg
  1
  $ grep -c '<title>lo holds m 100 to 2000 us</title>' run.svg
  1

Random lists
------------

The same seed gives the same list:

  $ desk releases examples/jitter.toml 14000 --seed 1
  until 14000
  4538 a 383 runs 1502
  7130 b
  10802 c runs 3182
  11538 a 840
  $ desk releases examples/jitter.toml 14000 --seed 2
  until 14000
  4839 a 364
  7647 b runs 1525
  11663 c runs 2880
  $ desk releases examples/shared-lock.toml 60000 --seed 7
  until 60000
  7983 hi runs 275
  17049 mid runs 413
  17983 hi runs 544
  27983 hi runs 137
  37983 hi runs 315
  47885 mid runs 965
  47983 hi
  57983 hi

Seeds are numbers from 0 to 4294967295:

  $ desk releases examples/shared-lock.toml 8000 --seed 0
  until 8000
  4970 hi
  $ desk releases examples/shared-lock.toml 8000 --seed 4294967295
  until 8000
  3999 hi runs 825
  $ desk releases examples/shared-lock.toml 8000 --seed x 2> errors
  [2]
  $ desk releases examples/shared-lock.toml 8000 --seed 4294967296 2> errors
  [2]

The refusals are those of the densest list:

  $ desk releases examples/shared-lock.toml 60000001 --seed 1 2> errors
  [2]
  $ printf '[[task]]\nname = "a"\nperiod = 1000\ndeadline = 1000\ncost = 1\n' > a.toml
  $ desk releases a.toml 12000000 --seed 1
  refused: TooMany
  [4]

What it prints `simulate` takes, and no job of an admitted set is done past its bound:

  $ desk admit examples/robot-mended.toml | tail -n +2 > bounds
  $ late() {
  >   grep ^job | while read job name arrival finish; do
  >     [ "$finish" = - ] || [ $((finish - arrival)) -le $(sed -n "s/^[0-9]* $name //p" bounds) ] || echo "$name $arrival $finish"
  >   done
  > }
  $ for seed in 1 2 3 4 5; do
  >   desk releases examples/robot-mended.toml 30000 --seed $seed > list
  >   desk simulate examples/robot-mended.toml list > trace || echo $?
  >   late < trace
  > done
  $ grep -c ^job trace
  44

What the tasks came to
----------------------

For each task by level its jobs that are done, the greatest response among them, and its bound:

  $ desk simulate examples/shared-lock.toml examples/early.releases --tasks
  task lo 1 2000 27000
  task mid 1 4300 7000
  task hi 2 2200 5000
  $ desk simulate examples/jitter.toml examples/late.releases --tasks
  task c 1 20000 20000
  task a 3 7000 7000
  task b 2 3000 3000

None is done, by the end or at all; no tasks; a set that isn't feasible; a list that is refused:

  $ printf 'until 999\n0 x\n' | desk simulate examples/fills-its-period.toml - --tasks
  task x 0 - 1000
  $ printf 'until 999\n' | desk simulate examples/shared-lock.toml - --tasks
  task lo 0 - 27000
  task mid 0 - 7000
  task hi 0 - 5000
  $ echo 'until 0' | desk simulate examples/empty-set.toml - --tasks
  $ echo 'until 20000' | desk simulate examples/blocked-out.toml - --tasks
  infeasible hi
  [3]
  $ printf 'until 20000\n0 z\n' | desk simulate examples/shared-lock.toml - --tasks
  refused: UnknownTask 1
  [4]
