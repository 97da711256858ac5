A chain's tasks may arrive at offsets of one clock, and each period on: the bound is the longest span of a round, from an
arrival of the first task to the output that its next job leads to. Its parts are what this span waits for and hands on:

  $ sed '$a offsets = [0, 0, 500]' examples/steer.toml > clock.toml
  $ desk admit clock.toml | tail -n 1
  chain steer 31100 of 45000
  $ desk explain clock.toml | sed '1,/^load/d'
  chain steer 31100 of 45000
    wait camera 10000
    wait plan 10000
    response plan less cost wheel 8600
    wait wheel 1900
    response wheel 600
  $ desk settings clock.toml > now
  $ desk judge clock.toml now | tail -n 1
  chain steer 31100 of 45000
  $ desk explain clock.toml --at now | sed '1,/^load/d'
  chain steer 31100 of 45000
    wait camera 10000
    wait plan 10000
    response plan less cost wheel 8600
    wait wheel 1900
    response wheel 600

It is no longer than without them, whichever they are; at deadlines each run has the same age:

  $ for o in '[0, 0, 0]' '[0, 0, 2700]' '[9999, 0, 0]' '[0, 19999, 4999]'; do sed "\$a offsets = $o" examples/steer.toml | desk admit - | tail -n 1; done
  chain steer 30600 of 45000
  chain steer 33300 of 45000
  chain steer 30601 of 45000
  chain steer 40599 of 45000
  $ sed '$a writes = "deadline"' clock.toml > timed.toml
  $ desk explain timed.toml | sed '1,/^load/d'
  chain steer 55500 misses 45000 least 55500
    wait camera 10000
    deadline camera 10000
    wait plan 10000
    deadline plan 20000
    wait wheel 500
    deadline wheel 5000
  $ desk releases --seed 7 timed.toml 400000 > list
  $ desk simulate --tasks timed.toml list | tail -n 1
  chain steer 71 age 55500 reaction 55500 bound 55500
  (on standard error) note: in the best order a chain misses its limit: desk admit says which

A limit is met up to the microsecond, and `least` is by the clock, too:

  $ sed 's/45000/31100/' clock.toml | desk admit - | tail -n 1
  chain steer 31100 of 31100
  $ sed 's/45000/31099/' clock.toml | desk admit - | tail -n 1
  chain steer 31100 misses 31099 least 31100

Lists have their jobs exactly there. A list that doesn't is run, and the first job that is off the clock is named:

  $ desk releases clock.toml 12000
  until 12000
  0 log
  0 plan
  0 camera
  500 wheel
  5500 wheel
  10000 camera
  10500 wheel
  $ desk releases --seed 3 clock.toml 200000 > list
  $ desk simulate --tasks clock.toml list | tail -n 1
  chain steer 39 age 30915 reaction 30915 bound 31100
  $ printf 'until 60000\n0 camera\n500 wheel\n10000 camera\n20100 camera\n30100 camera\n' > off
  $ desk simulate --tasks clock.toml off | tail -n 2
  chain steer 0 age - reaction - bound 31100
  offset camera 20100 100 of 0

The run that the bound describes is one on the clock, and comes to it here:

  $ desk worst --chain steer clock.toml | head -n 1
  # steer 31100 of 31100
  $ desk worst --chain steer examples/steer.toml | head -n 1
  # steer 44198 of 44200

A certificate has the bound, and `check` adds up a round by its own arithmetic:

  $ desk certify clock.toml > cert
  $ grep chain cert
  chain steer 31100
  $ desk check clock.toml cert
  best
  chain steer 31100 of 45000
  $ sed 's/31100/31099/' cert | desk check clock.toml -
  refused: BadAge steer
  [5]
  $ desk check examples/steer.toml cert
  refused: BadAge steer
  [5]

How far numbers may go with the chain met; no line moves the period of a task on the clock:

  $ sed 's/45000/31500/' clock.toml | desk limits --task plan - | grep chain
  chain steer plan cost 6000 6800
  chain steer plan jitter 0 1900
  (on standard error) note: no line moves the period of a task with an offset: another may be refused
  $ desk limits --task plan clock.toml
  admitted 4
  plan cost 6000 12600 12600
  plan deadline 20000 9200 7200
  plan jitter 0 10800 10800
  plan slack 10800
  (on standard error) note: no line moves the period of a task with an offset: another may be refused

A no without a line then doesn't say that no single change helps: here a longer deadline does, and a period with it:

  $ cat > late.toml << END
  > [[task]]
  > name = "a"
  > period = 1000
  > deadline = 1000
  > cost = 300
  > section = [{ locks = ["m"], at = 0, len = 1 }, { locks = ["n"], at = 1, len = 1 }]
  > [[task]]
  > name = "b"
  > period = 100000
  > deadline = 100000
  > cost = 3000
  > section = [{ locks = ["m"], at = 0, len = 1200 }, { locks = ["n"], at = 1500, len = 1200 }]
  > [[chain]]
  > name = "c"
  > tasks = ["a", "b"]
  > END
  $ desk limits late.toml | head -n 2
  infeasible a
  a deadline 1000 - 1500 with period 1500
  $ echo 'offsets = [0, 0]' | cat late.toml - | desk limits -
  infeasible a
  all - 666 a
  (on standard error) note: no line moves the period of a task with an offset: another may be refused
  [3]

What a change of offsets does:

  $ desk diff examples/steer.toml clock.toml
  admitted 4
  was admitted 4
  changed chain steer bound 44200 31100 slack 800 13900 keys offsets - 0+0+500
  $ sed 's/0, 0, 500/0, 0, 2000/' clock.toml | desk diff clock.toml -
  admitted 4
  was admitted 4
  changed chain steer bound 31100 32600 slack 13900 12400 keys offsets 0+0+500 0+0+2000

A job that doesn't say when it was ready may be seen to arrive as late as its jitter, and then to miss what another one hands over
on their clock. So the chain's age is held to the bound without offsets, and the jitter:

  $ cat > timed.toml << END
  > [[task]]
  > name = "a"
  > period = 10000
  > deadline = 5000
  > cost = 1000
  > jitter = 100
  > [[task]]
  > name = "b"
  > period = 10000
  > deadline = 10000
  > cost = 1000
  > [[chain]]
  > name = "c"
  > tasks = ["a", "b"]
  > offsets = [0, 5000]
  > writes = "deadline"
  > END
  $ seen() { for at in 0 10000 20000 30000 40000; do printf '%s %s a\n%s %s b\n' $((at + 100)) $((at + 1100)) $((at + 5000)) $((at + 6000)); printf "job a $1\njob b %s %s\n" $((at + $2)) $((at + 1100)) $((at + 100)) $((at + 5000)) $((at + 6000)); done; }
  $ seen '%s %s%.0s' 100 | desk observe timed.toml - | grep -e chain -e age
  chain c 3 age 34900 reaction 34900 bound 25000
  $ seen '%s %s %s' 0 | desk observe timed.toml - | grep -e chain -e age
  chain c 4 age 25000 reaction 25000 bound 25000
