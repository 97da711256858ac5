Release jitter. `three` gives the three tasks a, b and c of the examples with more keys for each:

  $ three() {
  >   echo "[[task]]"; echo "name = 'a'"; echo "period = 7000"; echo "deadline = 7000"; echo "cost = 3000"; echo "$1"
  >   echo "[[task]]"; echo "name = 'b'"; echo "period = 12000"; echo "deadline = 12000"; echo "cost = 3000"; echo "$2"
  >   echo "[[task]]"; echo "name = 'c'"; echo "period = 20000"; echo "deadline = 20000"; echo "cost = 5000"; echo "$3"
  > }

a may become ready up to 1000 after its arrival. Its response counts from the arrival, the number in its certificate from
the latest release:

  $ desk admit examples/jitter.toml
  admitted 3
  1 c 20000
  2 a 7000
  3 b 3000
  $ desk certify examples/jitter.toml
  desk-certificate 2
  best 3
  level 1 c 20000
  fails a 1 11000
  fails b 1 11000 14000
  level 2 a 6000
  level 3 b 3000
  end
  $ desk check examples/jitter.toml examples/three-tasks.cert
  refused: WrongVersion
  [5]
  $ sed 's/^desk-certificate 1/desk-certificate 2/' examples/three-tasks.cert > second.cert
  $ desk check examples/three-tasks.toml second.cert
  best

With a jitter of 1001 no order passes. A sheet takes 6999 at most:

  $ three 'jitter = 1001' | desk certify -
  desk-certificate 2
  none 3
  member a 1 11000
  member b 1 11000 14000
  member c 1 11000 14000 20000 23000
  end
  [3]
  $ three 'jitter = 6999' | desk admit -
  infeasible a b c
  [3]
  $ three 'jitter = 7000' | desk admit -
  refused: BadJitter 1
  [4]

In the simulated kernel a's first job and c meet their bounds exactly. The job of a that comes at 0 is ready at 1000, and
with 1001 it would be later than its jitter allows:

  $ desk simulate examples/jitter.toml examples/late.releases
  1000 4000 b
  4000 7000 a
  7000 10000 a
  10000 13000 c
  13000 16000 b
  16000 19000 a
  19000 21000 c
  job a 0 7000
  job b 1000 4000
  job c 1000 21000
  job a 7000 10000
  job b 13000 16000
  job a 14000 19000
  $ sed 's/^0 a 1000$/0 a 1001/' examples/late.releases | desk simulate examples/jitter.toml -
  refused: TooLate 1
  [4]

A release that is too late is refused behind one that comes too soon, and before one that is ready at the end:

  $ run() { printf "until 3000\n$1\n" | desk simulate examples/jitter.toml -; }
  $ run '0 a 1001\n6999 a'
  refused: TooSoon 2
  [4]
  $ run '2000 a 1001'
  refused: TooLate 1
  [4]
  $ run '2000 a 1000'
  refused: PastHorizon
  [4]
  $ run '1999 a 1000'
  2999 3000 a
  job a 1999 -
  $ run '0 b 1'
  refused: TooLate 1
  [4]
  $ run '0 a 0'
  0 3000 a
  job a 0 3000
  $ run '0 a 01'
  refused: BadLine 2
  [4]
  $ run '0 a 5 6'
  refused: BadLine 2
  [4]

In a script the field `j=` stands behind the cost. A job of a is done at most 3000 after it is ready:

  $ put() { printf "open 1\nput 1 a 0 7000 7000 3000 $1\ncommit 1\n" | desk play -; }
  $ put 'j=1000'
  draft 1 version 0
  ok
  admitted 1
  version 1
  level 1 a 1 4000
  $ put 'j=0' | tail -n 1
  level 1 a 1 3000
  $ put 'j=x'
  refused: BadLine 2
  [4]
  $ put 'j=7000'
  refused: line 2 BadJitter
  [4]
