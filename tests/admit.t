`desk admit SET` prints the best order, lowest level first, with each task's response bound; or the tasks of which none
can stand lowest of them.

The empty set is admitted:

  $ desk admit examples/empty-set.toml
  admitted 0

One task that fills its period. Its demand is 1000 at every time:

  $ desk admit examples/fills-its-period.toml
  admitted 1
  1 x 1000

p below q has the demand 4000 + 5000 = 9000 from 1 to 10000, so 9000 is its response. At its deadline of 11000 its
demand is 14000: that isn't asked.

  $ desk admit examples/demand-of-the-deadline.toml
  admitted 2
  1 p 9000
  2 q 5000

A cost past the deadline is a sheet like any other, but no order passes:

  $ desk admit examples/cost-past-deadline.toml
  infeasible x
  [3]

y can stand below x, so y isn't in the way:

  $ desk admit examples/obstruction-of-one.toml
  infeasible x
  [3]

Of the orders of three tasks that pass, the best has the task of least rank at the lowest level where they differ: a
and b fail at level 1, c passes there, and a passes at level 2.

  $ desk admit examples/three-tasks.toml
  admitted 3
  1 c 20000
  2 a 6000
  3 b 3000

With weights b is of smaller rank than a, and goes to level 2:

  $ desk admit examples/three-tasks-weighted.toml
  admitted 3
  1 c 20000
  2 b 6000
  3 a 3000

With a deadline of 19000 c fails at level 1, too:

  $ desk admit examples/three-tasks-too-tight.toml
  infeasible a b c
  [3]

lo's section of 4000 blocks hi, which uses its lock, and mid, which uses none:

  $ desk admit examples/shared-lock.toml
  admitted 3
  1 lo 27000
  2 mid 7000
  3 hi 5000

Without hi nobody shares the lock, and mid isn't blocked:

  $ desk admit - << END
  > [[task]]
  > name = "mid"
  > weight = 1
  > period = 20000
  > deadline = 20000
  > cost = 2000
  > [[task]]
  > name = "lo"
  > period = 100000
  > deadline = 100000
  > cost = 20000
  > section = [{ locks = ["m"], at = 100, len = 4000 }]
  > END
  admitted 2
  1 lo 24000
  2 mid 2000
  (on standard error) note: lock m has one user, lo

lo passes lowest, and then blocks hi for 2500: hi needs 4500 and has 4400.

  $ desk admit examples/blocked-out.toml
  infeasible hi
  [3]
  $ desk admit examples/blocked-out-repaired.toml
  admitted 2
  1 lo 14000
  2 hi 4500

x below y has the demand 1000 + 2000; y above x is blocked for 100:

  $ desk admit - << END
  > [[task]]
  > name = "x"
  > period = 10000
  > deadline = 10000
  > cost = 1000
  > section = [{ locks = ["m"], at = 0, len = 100 }]
  > [[task]]
  > name = "y"
  > period = 20000
  > deadline = 20000
  > cost = 2000
  > section = [{ locks = ["m"], at = 0, len = 2000 }]
  > END
  admitted 2
  1 x 3000
  2 y 2100

Two tasks of cost 6000 don't fit into a period of 10000, two of 4000 do:

  $ pair() { for name in a b; do echo "[[task]]"; echo "name = '$name'"; echo "cost = $1"; echo "period = 10000"
  >   echo "deadline = 10000"; done; }
  $ pair 6000 | desk admit -
  infeasible a b
  [3]
  $ pair 4000 | desk admit -
  admitted 2
  1 a 8000
  2 b 4000

Names are compared by bytes, so the rank of t10 is smaller than that of t2. The order of tasks in the document doesn't
matter.

  $ task() { echo "[[task]]"; echo "name = 't$1'"; echo "period = 10000"; echo "deadline = 10000"; echo "cost = 100"; }
  $ { task 2; task 10; } | desk admit -
  admitted 2
  1 t10 200
  2 t2 100
  $ { task 10; task 2; } | desk admit -
  admitted 2
  1 t10 200
  2 t2 100

32 tasks are admitted, the lowest with 32 times the cost; one more is refused:

  $ for n in $(seq 0 31); do task $n; done > 32.toml
  $ desk admit 32.toml | sed -n '1,4p;32,$p'
  admitted 32
  1 t0 3200
  2 t1 3100
  3 t10 3000
  31 t8 200
  32 t9 100
  $ { cat 32.toml; task 32; } | desk admit -
  refused: TooManyTasks
  [4]

All sets of the examples are read:

  $ for set in examples/*.toml; do desk admit $set; done | grep refused
  [1]
