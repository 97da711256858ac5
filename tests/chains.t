`desk admit`, `judge` and `explain` end with a line for each chain of the set: its bound in their order, beside its limit.

  $ desk admit examples/steer.toml
  admitted 4
  1 log 17400
  2 plan 9200
  3 camera 2600
  4 wheel 600
  chain steer 44200 of 45000
  $ desk explain examples/steer.toml | sed '1,/^load/d'
  chain steer 44200 of 45000
    wait camera 10000
    wait plan 20000
    response plan less cost wheel 8600
    wait wheel 5000
    response wheel 600
  $ desk settings examples/steer.toml > now
  $ desk judge examples/steer.toml now
  meets 4
  1 log 17400 of 100000 at 1
  2 plan 9200 of 20000 at 2
  3 camera 2600 of 10000 at 3
  4 wheel 600 of 5000 at 4
  chain steer 44200 of 45000
  $ desk explain examples/steer.toml --at now | sed '1,/^load/d'
  chain steer 44200 of 45000
    wait camera 10000
    wait plan 20000
    response plan less cost wheel 8600
    wait wheel 5000
    response wheel 600

The bound is within its limit up to the microsecond; the lesser of both limits counts, and without one nothing is missed:

  $ sed 's/45000/44200/' examples/steer.toml | desk admit - | tail -n 1
  chain steer 44200 of 44200
  $ sed 's/45000/44199/' examples/steer.toml > tight.toml
  $ desk admit tight.toml
  admitted 4
  1 log 17400
  2 plan 9200
  3 camera 2600
  4 wheel 600
  chain steer 44200 misses 44199 least 42200
  [3]
  $ desk explain tight.toml > said
  [3]
  $ head -n 1 said; grep chain said
  admitted 4
  chain steer 44200 misses 44199 least 42200
  $ desk judge tight.toml now > said
  [3]
  $ head -n 1 said; tail -n 1 said
  meets 4
  chain steer 44200 misses 44199
  $ desk explain tight.toml --at now > said
  [3]
  $ { cat examples/steer.toml; echo 'age = 44199'; } | desk admit - | tail -n 1
  chain steer 44200 misses 44199 least 42200
  $ grep -v reaction examples/steer.toml | desk admit - | tail -n 1
  chain steer 44200

A miss in the best order, and in no other, ends with the least bound, below which no order that passes has one. Past the limit no
order meets the chain; else it is open, and `prefer.t` has an order that meets one:

  $ sed 's/45000/42199/' examples/steer.toml | desk admit - | tail -n 1
  chain steer 44200 misses 42199 least 42200

`settings` prints what it prints without chains, with the status of `admit`:

  $ desk settings tight.toml > missing
  (on standard error) note: in the best order a chain misses its limit: desk admit says which
  [3]
  $ cmp missing now
  $ desk settings tight.toml --base 10 --room 1 > said
  (on standard error) note: in the best order a chain misses its limit: desk admit says which
  [3]
  $ wc -l < said
  4

So does `--keep`, with the order of settings:

  $ desk settings tight.toml --keep missing > kept
  (on standard error) note: in this order a chain misses its limit: desk judge says which
  [3]
  $ cmp kept missing
  $ printf 'thread wheel 1\nthread camera 2\n' | desk settings tight.toml --keep - > kept; echo $?
  3
  (on standard error) note: in this order a chain misses its limit: desk judge says which
  $ desk judge tight.toml kept | tail -n 1
  chain steer 46200 misses 44199
  $ desk settings examples/steer.toml --keep missing | cmp - missing

Of one task no chain is said, and none makes a no; a note says that one is missed, as beside each answer of the best order that has
no line of it:

  $ desk explain tight.toml --task wheel
  admitted 4
  4 wheel 600 of 5000
    cost 600
  (on standard error) note: in the best order a chain misses its limit: desk admit says which
  $ desk limits tight.toml --task wheel | head -n 1
  admitted 4
  (on standard error) note: in the best order a chain misses its limit: desk admit says which
  $ desk limits tight.toml | head -n 1
  admitted 4
  (on standard error) note: in the best order a chain misses its limit: desk admit says which
  $ desk certify tight.toml | grep chain
  chain steer 44200
  (on standard error) note: in the best order a chain misses its limit: desk admit says which
  $ desk worst tight.toml | head -n 1
  # wheel 600 of 600
  (on standard error) note: in the best order a chain misses its limit: desk admit says which
  $ desk worst tight.toml --chain steer | head -n 1
  # steer 44198 of 44200
  (on standard error) note: in the best order a chain misses its limit: desk admit says which
  $ desk releases tight.toml 1000 | desk simulate tight.toml - --tasks | tail -n 1
  chain steer 0 age - reaction - bound 44200
  (on standard error) note: in the best order a chain misses its limit: desk admit says which
  $ desk releases tight.toml 1000 | desk simulate tight.toml - > trace
  (on standard error) note: in the best order a chain misses its limit: desk admit says which
  $ desk observe tight.toml trace | head -n 1
  task log 1 0 5000 - 100000 - 17400
  (on standard error) note: in the best order a chain misses its limit: desk admit says which
  $ desk releases tight.toml 1000 | desk draw tight.toml - > /dev/null
  (on standard error) note: in the best order a chain misses its limit: desk admit says which

So it is of an order that is given, where it passes, and of a new set:

  $ desk explain tight.toml --task wheel --at now
  meets 4
  4 wheel 600 of 5000
    cost 600
  (on standard error) note: in this order a chain misses its limit: desk judge says which
  $ desk limits tight.toml --at now --task wheel | head -n 1
  meets 4
  (on standard error) note: in this order a chain misses its limit: desk judge says which
  $ printf 'thread wheel 1\nthread log 2\nthread plan 3\nthread camera 4\n' | desk worst tight.toml --at - | head -n 1
  # wheel misses 5000
  $ desk diff tight.toml tight.toml
  admitted 4
  was admitted 4
  (on standard error) note: in the new set's best order a chain misses its limit: desk admit says which
  $ desk diff tight.toml examples/steer.toml > said
  $ desk explain tight.toml --at now > said
  [3]

So does an order in front of a list or a trace. Of two sets in one picture their own commands do:

  $ cat now trace | desk observe tight.toml - | head -n 1
  task log 1 0 5000 - 100000 - 17400
  (on standard error) note: in this order a chain misses its limit: desk judge says which
  $ { cat now; desk releases tight.toml 1000; } | desk simulate tight.toml - > /dev/null
  (on standard error) note: in this order a chain misses its limit: desk judge says which
  $ desk releases tight.toml 1000 | desk draw tight.toml - --beside tight.toml > /dev/null

In an order in which a task of it misses its deadline a chain has no bound. Where no order passes, none has a line:

  $ printf 'thread wheel 1\nthread log 2\nthread plan 3\nthread camera 4\n' > turned
  $ desk judge examples/steer.toml turned
  misses wheel
  1 wheel misses 5000 needs 13600 at 1
  2 log 15000 of 100000 at 2
  3 plan 8000 of 20000 at 3
  4 camera 2000 of 10000 at 4
  chain steer - misses 45000
  [3]
  $ grep -v reaction examples/steer.toml | desk explain - --at turned | tail -n 1
  chain steer -
  $ { cat examples/steer.toml; printf '[[task]]\nname = "more"\nperiod = 5000\ndeadline = 500\ncost = 501\n'; } | desk explain - > said
  [3]
  $ grep chain said
  [1]

A handover to a task below takes the jitter; parts of 0 have no line. With what the node takes, in a folder of two teams:

  $ mkdir teams
  $ printf 'prefer = "deadline"\n[node]\njob = 20\nlate = 15\n' > teams/node.toml
  $ printf '[[task]]\nname = "a"\nperiod = 5000\ndeadline = 5000\ncost = 1000\n' > teams/arm.toml
  $ printf '[[task]]\nname = "b"\nperiod = 10000\ndeadline = 10000\ncost = 1000\n[[chain]]\nname = "down"\ntasks = ["a", "b"]\n[[chain]]\nname = "up"\ntasks = ["b", "a"]\nage = 20000\n' > teams/base.toml
  $ desk explain teams
  admitted 2
  1 b 2055 of 10000 team base
    cost 1000
    node 20
    jitter 15
    above a 1 jobs 1020 team arm
  2 a 1035 of 5000 team arm
    cost 1000
    node 20
    jitter 15
  load 306000
  chain down 17070
    wait a 5000
    jitter a 15
    wait b 10000
    response b 2055
  chain up 17070 of 20000
    wait b 10000
    response b less cost a 1035
    wait a 5000
    response a 1035

What chains come to in a run stands behind its tasks, and makes no no: here the age and the reaction come to the bound but
for a microsecond at each handover.

  $ desk simulate examples/steer.toml examples/steer.releases --tasks
  task log 1 14800 17400
  task plan 3 9200 9200
  task camera 7 2000 2600
  task wheel 14 600 600
  chain steer 8 age 44198 reaction 44198 bound 44200

A job reads what was written last before it begins, or at that instant: here the third `out` the second `in`. The first has
nothing to read. The age goes on to the end; the reaction is to what came just after a sample that an output has:

  $ task() { printf '[[task]]\nname = "%s"\nperiod = %s\ndeadline = %s\ncost = %s\n' "$1" "$2" "$2" "$3"; }
  $ two() { echo 'prefer = "deadline"'; task out 1000 100; task in 2000 "$1"; printf '[[chain]]\nname = "%s"\ntasks = [%s]\n' there '"in", "out"' back '"out", "in"' alone '"in"'; }
  $ two 400 > two.toml
  $ run() { printf "$1" | desk simulate two.toml - --tasks; }
  $ run 'until 5000\n0 in\n0 out\n1000 out\n2000 in\n2400 out\n3400 out\n'
  task in 2 500 500
  task out 4 100 100
  chain there 3 age 3000 reaction 2400 bound 3500
  chain back 2 age 4000 reaction 2400 bound 3500
  chain alone 2 age 3000 reaction 2300 bound 2500
  $ run 'until 500\n0 in\n400 out\n' | grep chain
  chain there 1 age 500 reaction - bound 3500
  chain back 0 age - reaction - bound 3500
  chain alone 1 age 500 reaction - bound 2500
  $ run 'until 5000\n' | grep chain
  chain there 0 age - reaction - bound 3500
  chain back 0 age - reaction - bound 3500
  chain alone 0 age - reaction - bound 2500

A job of `in` that comes 3 ms after the one before it, no steady one, takes the age past the bound:

  $ run 'until 6000\n0 in\n400 out\n1400 out\n2400 out\n3000 in runs 100\n3400 out\n' | grep chain
  chain there 4 age 3500 reaction 3500 bound 3500
  chain back 1 age 3600 reaction - bound 3500
  chain alone 2 age 3100 reaction 3100 bound 2500

In an order of the list a chain of a task that misses its deadline has no bound; what comes before an overrun counts:

  $ two 950 > two.toml
  $ run 'thread out 1\nthread in 2\nuntil 5000\n0 in\n0 out\n1000 out\n2000 in\n' 2> /dev/null
  task out 0 - -
  task in 1 950 950
  chain there 0 age - reaction - bound -
  chain back 0 age - reaction - bound -
  chain alone 1 age 1000 reaction - bound 2950

What a trace of a node shows of them comes last. An age past its bound is a no, and so is a job of a chain's task that comes
later than a period after the one before, but for what is let pass:

  $ desk simulate examples/steer.toml examples/steer.releases > trace; desk observe examples/steer.toml trace
  task log 1 5000 5000 - 100000 14800 17400
  task plan 3 6000 6000 20000 20000 9200 9200
  task camera 7 2000 2000 10000 10000 2000 2600
  task wheel 14 600 600 5000 5000 600 600
  chain steer 8 age 44198 reaction 44198 bound 44200
  $ two 400 > two.toml
  $ printf 'until 6000\n0 in\n400 out\n1400 out\n2400 out\n3000 in runs 100\n3400 out\n' | desk simulate two.toml - > trace
  $ desk observe two.toml trace
  task in 2 400 400 3000 2000 400 500
  task out 4 100 100 1000 1000 100 100
  steady in 3000 3000 of 2000
  chain there 4 age 3500 reaction 3500 bound 3500
  chain back 1 age 1100 reaction - bound 3500
  chain alone 2 age 3100 reaction 3100 bound 2500
  age alone 3100 of 2500
  [3]
  $ desk observe --tolerance 1000 two.toml trace | tail -n 1
  chain alone 2 age 3100 reaction 3100 bound 2500

The trace of a run ends with its last slice or finish, before `until`, so that an age at the end is less:

  $ printf 'until 5000\n0 in\n400 out\n' > short; desk simulate two.toml short --tasks | grep alone
  chain alone 1 age 5000 reaction - bound 2500
  $ desk simulate two.toml short | desk observe two.toml - | grep alone
  chain alone 1 age 500 reaction - bound 2500

A job writes at its finish, however long after its last slice; its first one is where it reads. In an order of the trace in
which a task misses its deadline nothing is promised of chains:

  $ printf '0 400 in\n400 500 out\n1400 1500 out\n2000 2300 in\n2400 2500 out\njob in 0 400\njob out 400 500\njob out 1400 1500\njob in 2000 2450\njob out 2400 2550\n' > later
  $ desk observe two.toml later | grep chain
  chain there 3 age 2550 reaction - bound 3500
  chain back 1 age 1150 reaction - bound 3500
  chain alone 2 age 2450 reaction 2450 bound 2500
  $ two 950 > late.toml; { printf 'thread out 1\nthread in 2\n'; cat later; } | desk observe late.toml - > said
  [3]
  $ grep chain said
  [1]

Time of an interrupt that is told as that of a job which hasn't begun seems to be its first. Here c waits for i at 10500, and reads
when i is done, but a tick of the interrupt is said to be c's; with that tick said to be i's, the age is within the bound:

  $ { printf '[[interrupt]]\nperiod = 5000\ncost = 17\n'; task i 10000 1000; task c 9500 1000; printf '[[chain]]\nname = "x"\ntasks = ["i", "c"]\n'; } > beside.toml
  $ told() { printf "0 1000 i\n1000 2000 c\n10000 10500 i\n10500 10501 $1\n10501 11017 i\n11017 12017 c\n20000 21017 i\n21017 22017 c\njob i 0 1000\njob c 1000 2000\njob i 10000 11017\njob c 10500 12017\njob i 20000 21017\njob c 20000 22017\n" | desk observe beside.toml -; }
  $ told i | tail -n 1
  chain x 3 age 12017 reaction 12017 bound 21517
  $ told c > said
  [3]
  $ tail -n 2 said
  chain x 3 age 22017 reaction 22017 bound 21517
  age x 22017 of 21517

`limits` ends with what a chain's bound leaves of its limit, and how far numbers may go with the chain met, where the order lets
them go further. Where the chain is missed, they have to come back that far, if any value helps.

  $ desk limits examples/steer.toml | sed '1,/^all/d'
  chain steer slack 800
  chain steer plan cost 6000 6800
  chain steer plan jitter 0 800
  chain steer camera cost 2000 2800
  chain steer camera jitter 0 800
  chain steer wheel cost 600 1000
  chain steer wheel jitter 0 800
  $ sed 's/^cost = 600$/cost = 1000/' examples/steer.toml | desk admit - | tail -n 1
  chain steer 45000 of 45000
  $ sed 's/^cost = 600$/cost = 1001/' examples/steer.toml | desk admit - | tail -n 1
  chain steer 48003 misses 45000 least 48003
  $ desk limits tight.toml | sed '1,/^all/d'
  chain steer plan cost 6000 5999
  chain steer camera cost 2000 1999
  chain steer wheel cost 600 599
  (on standard error) note: in the best order a chain misses its limit: desk admit says which
  $ desk limits tight.toml --at now | sed '1,/^all/d'
  chain steer plan cost 6000 5999
  chain steer camera cost 2000 1999
  chain steer wheel cost 600 599
  (on standard error) note: in this order a chain misses its limit: desk judge says which
  $ desk limits examples/steer.toml --task plan | grep chain
  chain steer plan cost 6000 6800
  chain steer plan jitter 0 800
  $ desk limits examples/steer.toml --at now --task plan | grep chain
  chain steer plan cost 6000 6800
  chain steer plan jitter 0 800

With a number changed `admit` may have another order: here x, of smaller rank, may stand lowest with z at 1900, and the chain is
missed by more; today's order meets it. By deadlines more jitter of p takes it above q, where its line speaks of deadlines alone:

  $ sheet() { printf '[[task]]\nname = "%s"\nperiod = 10000\ndeadline = %s\ncost = %s\nweight = %s\n%s' "$1" "$2" "$3" "$4" "$5"; }
  $ alone() { printf '[[chain]]\nname = "alone"\ntasks = ["%s"]\nage = %s\n' "$1" "$2"; }
  $ three() { sheet x 3450 1000 0; sheet y 10000 500 1; sheet z 10000 "$1" 2; alone x 12900; }
  $ three 2000 | desk admit - | tail -n 1
  chain alone 13000 misses 12900 least 11000
  $ three 2000 | desk limits - | grep 'alone z'
  chain alone z cost 2000 1900
  (on standard error) note: in the best order a chain misses its limit: desk admit says which
  $ three 1900 | desk admit - | tail -n 1
  chain alone 13400 misses 12900 least 11000
  $ three 2000 | desk settings - > today 2> said
  [3]
  $ three 1900 | desk settings - --keep today | cmp - today && three 1900 | desk judge - today | tail -n 1
  chain alone 12900 of 12900
  $ late() { echo 'prefer = "deadline"'; sheet p 10000 2000 0 "jitter = $1"; echo; sheet q 9990 1000 0; alone q 11500; }
  $ late 0 | desk limits - | grep -e '^p jitter' -e 'alone p'
  p jitter 0 7000 8000
  $ late 100 | desk admit - | tail -n 1
  chain alone 13000 misses 11500 least 11000

A chain without a limit has no line, nor has any after a no. What the node takes is in no number:

  $ grep -v reaction examples/steer.toml | desk limits - | grep chain
  [1]
  $ desk limits examples/steer.toml --at turned | grep chain
  [1]
  $ desk limits teams | grep '^chain'
  chain up slack 2930
  chain up b cost 1000 3930
  chain up b jitter 0 2930
  chain up a cost 1000 3930
  chain up a jitter 0 2930

No other command's status counts limits:

  $ desk limits tight.toml > said && desk worst tight.toml > said && desk worst tight.toml --at now > said && desk diff examples/steer.toml tight.toml
  admitted 4
  was admitted 4
  changed chain steer bound 44200 44200 slack 800 -1 keys limit 45000 44199
  (on standard error) note: in the best order a chain misses its limit: desk admit says which
  (on standard error) note: in the best order a chain misses its limit: desk admit says which
  (on standard error) note: in this order a chain misses its limit: desk judge says which
  (on standard error) note: in the new set's best order a chain misses its limit: desk admit says which

In a random list the tasks of chains come exactly a period apart, as what is promised of a chain asks; others may come later:

  $ desk releases examples/steer.toml 200000 --seed 3 > random
  $ for task in camera plan wheel; do awk -v t=$task '$2 == t { if (n++) print $2, $1 - last; last = $1 }' random | sort | uniq -c | sed 's/^ *//'; done
  19 camera 10000
  9 plan 20000
  39 wheel 5000
  $ desk simulate examples/steer.toml random --tasks | tail -n 1
  chain steer 37 age 37199 reaction 37199 bound 44200

`worst --chain` prints the run that a chain's bound describes. A job of each task counts: the camera's at 30000, which waits
out a period behind the sample at 20000; the plan's at 49999, whose job before came a tick before the camera's was done; the
wheel's at 63598, which comes a tick before the plan is, less its own cost. So it comes to the bound but for two ticks:

  $ desk worst examples/steer.toml --chain steer > built; head -n 9 built
  # steer 44198 of 44200
  until 64198
  0 camera
  3598 wheel
  8598 wheel
  9999 plan
  10000 camera
  13598 wheel
  18598 wheel
  $ desk simulate examples/steer.toml built --tasks | tail -n 1
  chain steer 9 age 44198 reaction 44198 bound 44200

It isn't always the worst: c comes a tick before the handover from b is over, 2600, but b, with two jobs of a in the place of the
bound's three, is done after 2400, and is read. A list in which c comes sooner shows what the bound is about. A list of one chain
says nothing of another, whose tasks it may leave out for longer than a period:

  $ three() { echo 'prefer = "deadline"'; task a 2000 200; task b 40000 2000; task c 40000 2000; printf '[[chain]]\nname = "%s"\ntasks = [%s]\n' slow '"b", "c"' fast '"a"'; }
  $ three > three.toml; desk worst three.toml --chain slow > built; head -n 1 built
  # slow 44799 of 85000
  $ desk simulate three.toml built --tasks | grep chain
  chain slow 4 age 44799 reaction 44799 bound 85000
  chain fast 5 age 38799 reaction 38799 bound 2200
  $ { echo until 126000; { seq -f '%.0f a' 0 2000 124000; seq -f '%.0f b' 0 40000 120000; seq -f '%.0f c' 2399 40000 124000; } | sort -n; } > sooner
  $ desk simulate three.toml sooner --tasks | grep chain
  chain slow 3 age 84399 reaction 84399 bound 85000
  chain fast 63 age 2200 reaction 2200 bound 2200

In another order, which stands in front of the list; where a task of the chain misses there, there is no bound:

  $ printf 'thread log 1\nthread plan 2\nthread wheel 3\nthread camera 4\n' > order
  $ desk worst examples/steer.toml --at order --chain steer > built; head -n 6 built
  # steer 44198 of 46200
  thread log 1
  thread plan 2
  thread wheel 3
  thread camera 4
  until 66198
  (on standard error) note: in this order a chain misses its limit: desk judge says which
  $ desk simulate examples/steer.toml built --tasks | tail -n 1
  chain steer 9 age 44198 reaction 44198 bound 46200
  (on standard error) note: in this order a chain misses its limit: desk judge says which
  $ printf 'thread plan 1\nthread camera 2\nthread wheel 3\nthread log 4\n' > order
  $ desk worst examples/steer.toml --at order --chain steer
  # steer no-bound
  thread plan 1
  thread camera 2
  thread wheel 3
  thread log 4
  until 0
  [3]
  $ desk worst two.toml --chain out --task in
  refused: NoSuchChain out
  [4]

Where the tasks of a chain write at their deadlines, each job reads as it arrives. So no order moves the bound, all periods and
deadlines, where the tasks meet them, and no cost:

  $ timed() { echo 'prefer = "deadline"'; printf '[[task]]\nname = "%s"\nperiod = 10000\ndeadline = %s\ncost = %s\n' cam 9000 "${2:-1000}" act 8000 1000; printf '[[chain]]\nname = "timed"\ntasks = ["cam", "act"]\nreaction = %s\nwrites = "%s"\n' "$1" "${3:-deadline}"; }
  $ timed 37000 > timed.toml; desk explain timed.toml
  admitted 2
  1 cam 2000 of 9000
    cost 1000
    above act 1 jobs 1000
  2 act 1000 of 8000
    cost 1000
  load 200000
  chain timed 37000 of 37000
    wait cam 10000
    deadline cam 9000
    wait act 10000
    deadline act 8000
  $ printf 'thread act 1\nthread cam 2\n' > order; desk judge timed.toml order | tail -n 1
  chain timed 37000 of 37000
  $ timed 37000 7000 | desk admit - | tail -n 1
  chain timed 37000 of 37000
  $ timed 36999 | desk admit -
  admitted 2
  1 cam 2000
  2 act 1000
  chain timed 37000 misses 36999 least 37000
  [3]
  $ timed 37000 1000 finish | desk admit - | tail -n 1
  chain timed 22000 of 37000
  $ timed 37000 1000 finish > plain.toml; desk diff plain.toml timed.toml
  admitted 2
  was admitted 2
  changed chain timed bound 22000 37000 slack 15000 0 keys writes finish deadline
  $ desk limits timed.toml | grep chain
  chain timed slack 0
  $ desk certify timed.toml > timed.cert; tail -n 2 timed.cert; desk check timed.toml timed.cert
  chain timed 37000
  end
  best
  chain timed 37000 of 37000
  $ desk check plain.toml timed.cert | tail -n 1
  chain timed 37000 of 37000
  $ desk certify plain.toml > plain.cert; desk check timed.toml plain.cert
  refused: BadAge timed
  [5]

What a job reads depends on arrivals alone: here `act` comes a tick before `cam` writes. What is read at 10,000 stands until 46,999:

  $ desk worst timed.toml --chain timed > built; head -n 2 built
  # timed 36999 of 37000
  until 46999
  $ desk simulate timed.toml built --tasks | tail -n 1
  chain timed 3 age 36999 reaction 36999 bound 37000
  $ sed 's/cam/cam runs 1/' built | desk simulate timed.toml - --tasks | tail -n 1
  chain timed 3 age 36999 reaction 36999 bound 37000
  $ { cat built; echo '48999 act'; } | sed 's/until.*/until 60000/' | desk simulate timed.toml - > trace; desk observe timed.toml trace | tail -n 1
  chain timed 3 age 36999 reaction 36999 bound 37000

In a node's trace an ARRIVAL without READY may be late by the jitter. So a job may be seen to arrive before the one before it of its
task has written: here `act` reads at 13,000 what `cam` writes at 12,000, though another of its jobs has come at 10,000:

  $ { printf '[[task]]\nname = "%s"\nperiod = %s\ndeadline = %s\ncost = 1000\njitter = %s\n' cam 10000 10000 2000 act 20000 20000 0; printf '[[chain]]\nname = "late"\ntasks = ["cam", "act"]\nwrites = "deadline"\n'; } > late.toml
  $ seen() { for job; do set -- $(echo $job | tr : ' '); echo "$2 $(($2 + 1000)) $1"; echo "job $1 $2 $(($2 + 1000))${3:+ $3}"; done; }
  $ seen cam:2000 cam:10000 act:13000 cam:20000 cam:30000 act:33000 cam:40000 cam:50000 | desk observe late.toml - | tail -n 1
  chain late 1 age 49000 reaction - bound 60000

An age may be past the bound by as much; where `cam` says when its jobs were ready it may not:

  $ seen cam:0 act:1499 cam:11500 cam:20000 act:21499 cam:30000 cam:40000 act:41499 cam:50000 cam:61000 | desk observe late.toml - | tail -n 1
  chain late 2 age 61499 reaction 61499 bound 60000
  $ seen cam:0:0 act:1499 cam:11500:11500 cam:20000:20000 act:21499 cam:30000:30000 cam:40000:40000 act:41499 cam:50000:50000 cam:61000:61000 | desk observe late.toml - > shown
  [3]
  $ tail -n 4 shown
  steady cam 11500 11500 of 10000
  steady cam 61000 11000 of 10000
  chain late 2 age 61499 reaction 61499 bound 60000
  age late 61499 of 60000
  $ seen cam:0 act:1499 cam:11500 cam:20000 act:21499 cam:30000 cam:40000 act:42100 cam:50000 cam:61000 cam:71000 | desk observe late.toml - > shown
  [3]
  $ tail -n 3 shown
  steady act 42100 20601 of 20000
  chain late 2 age 62100 reaction 62100 bound 60000
  age late 62100 of 62000
