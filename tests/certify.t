`desk certify SET` prints a certificate of what `admit` answers: for a best order each level with its response and the
failures of the remaining tasks of smaller rank; else the tasks that stand in the way, each with its chain. The numbers
of a failure begin with 1, each next one is the demand of the one before it, and the last is past the deadline.

The certificate of three tasks, 114 bytes:

  $ desk certify examples/three-tasks.toml
  desk-certificate 1
  best 3
  level 1 c 20000
  fails a 1 11000
  fails b 1 11000 14000
  level 2 a 6000
  level 3 b 3000
  end
  $ desk certify examples/three-tasks.toml | wc -c | tr -d ' '
  114
  $ desk certify examples/three-tasks.toml | cmp - examples/three-tasks.cert

With weights b comes before a by rank, and a, which is of greater rank than c, needs no failure:

  $ desk certify examples/three-tasks-weighted.toml
  desk-certificate 1
  best 3
  level 1 c 20000
  fails b 1 11000 14000
  level 2 b 6000
  level 3 a 3000
  end

Where no order passes the status is 3:

  $ desk certify examples/three-tasks-too-tight.toml
  desk-certificate 1
  none 3
  member a 1 11000
  member b 1 11000 14000
  member c 1 11000 14000 17000 20000
  end
  [3]
  $ desk certify examples/blocked-out.toml
  desk-certificate 1
  none 1
  member hi 1 4500
  end
  [3]
  $ desk certify examples/blocked-out.toml | cmp - examples/blocked-out.cert
  $ desk certify examples/cost-past-deadline.toml
  desk-certificate 1
  none 1
  member x 1 3000
  end
  [3]
  $ desk certify examples/obstruction-of-one.toml
  desk-certificate 1
  none 1
  member x 1 3000
  end
  [3]

  $ body="period = 10000, deadline = 10000, cost = 6000"
  $ echo "task = [{ name = 'a', $body }, { name = 'b', $body }]" | desk certify -
  desk-certificate 1
  none 2
  member a 1 12000
  member b 1 12000
  end
  [3]

Repaired, hi is asked first at level 1 and fails there, with lo above it:

  $ desk certify examples/blocked-out-repaired.toml
  desk-certificate 1
  best 2
  level 1 lo 14000
  fails hi 1 12000
  level 2 hi 4500
  end

Without failures:

  $ desk certify examples/shared-lock.toml
  desk-certificate 1
  best 3
  level 1 lo 27000
  level 2 mid 7000
  level 3 hi 5000
  end
  $ desk certify examples/demand-of-the-deadline.toml
  desk-certificate 1
  best 2
  level 1 p 9000
  level 2 q 5000
  end

The certificate of the empty set, 30 bytes:

  $ desk certify examples/empty-set.toml
  desk-certificate 1
  best 0
  end
  $ desk certify examples/empty-set.toml | wc -c | tr -d ' '
  30

A set that is refused has no certificate:

  $ echo 'x = 1' | desk certify -
  refused: UnknownKey 0 0
  [4]

The desk's own certificates are accepted, that of a full set, too:

  $ for set in examples/*.toml; do
  >   desk certify $set > own.cert
  >   desk check $set own.cert
  > done | sort -u
  best
  chain steer 44200 of 45000
  no order
  $ for n in $(seq 0 31); do
  >   echo "[[task]]"; echo "name = 't$n'"; echo "period = 10000"; echo "deadline = 10000"; echo "cost = 100"
  > done > 32.toml
  $ desk certify 32.toml > 32.cert
  $ head -n 3 32.cert
  desk-certificate 1
  best 32
  level 1 t0 3200
  $ desk check 32.toml 32.cert
  best

Chains
------

A best order of a set with chains has version 5, and behind its levels each chain with its bound, whatever else the set has;
without an order none has a line:

  $ desk certify examples/steer.toml
  desk-certificate 5
  best 4
  level 1 log 17400
  level 2 plan 9200
  level 3 camera 2600
  level 4 wheel 600
  chain steer 44200
  end
  $ desk certify examples/steer.toml | cmp - examples/steer.cert
  $ { cat examples/steer.toml; printf '[node]\njob = 20\nrelease = 10\nlate = 15\n'; } > node.toml
  $ desk admit node.toml | tail -n 1
  chain steer 44375 of 45000
  $ desk certify node.toml
  desk-certificate 5
  best 4
  level 1 log 17560
  level 2 plan 9290
  level 3 camera 2660
  level 4 wheel 650
  chain steer 44375
  end
  $ { grep -v prefer examples/steer.toml; printf '[[task]]\nname = "more"\nperiod = 5000\ndeadline = 500\ncost = 501\n'; } | desk certify -
  desk-certificate 1
  none 1
  member more 1 501
  end
  [3]
