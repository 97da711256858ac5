`desk releases SET UNTIL` prints the densest release list that a set allows, for `simulate` and `draw`. All tasks become
ready together at the greatest jitter of the set, each as late as its own allows, and then come again after each period.

  $ desk releases examples/jitter.toml 14000
  until 14000
  0 a 1000
  1000 b
  1000 c
  7000 a
  13000 b
  $ desk releases examples/shared-lock.toml 20001
  until 20001
  0 lo
  0 mid
  0 hi
  10000 hi
  20000 mid
  20000 hi

A job is listed that becomes ready before the end, and none at it:

  $ desk releases examples/jitter.toml 1000
  until 1000
  $ desk releases examples/jitter.toml 1001
  until 1001
  0 a 1000
  1000 b
  1000 c
  $ desk releases examples/jitter.toml 0
  until 0

What it prints `simulate` takes, and no job is done past its bound; also of a set that isn't feasible:

  $ desk releases examples/jitter.toml 60000 | desk simulate examples/jitter.toml - | grep -c '^job'
  17
  $ desk releases examples/blocked-out.toml 10001
  until 10001
  0 hi
  0 lo
  10000 hi

More than 10,000 releases are too many; UNTIL is at most the horizon, and a number:

  $ desk releases examples/shared-lock.toml 60000000 > list || echo $?
  $ tail -n 1 list
  59990000 hi
  $ printf '[[task]]\nname = "a"\nperiod = 1000\ndeadline = 1000\ncost = 1\n' > a.toml
  $ desk releases a.toml 10000000 | wc -l
  10001
  $ desk releases a.toml 10000001
  refused: TooMany
  [4]
  $ desk releases a.toml 60000001 2> errors
  [2]
  $ desk releases a.toml x 2> errors
  [2]

A set that is refused:

  $ echo 'task = [{ name = "a", period = 10000, deadline = 10000, cost = 0 }]' | desk releases - 5
  refused: CostZero 1
  [4]
