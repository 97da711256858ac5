Small sets worked out by hand, by command, beside those of the other files. `task` gives a task with more keys, `three` the
three tasks a, b and c of the examples with more keys for each, `document` a set by its name:

  $ task() { printf '[[task]]\nname = "%s"\nperiod = %s\ndeadline = %s\ncost = %s\n%s\n' "$1" $2 $3 $4 "$5"; }
  $ three() { task a 7000 7000 3000 "$1"; task b 12000 12000 3000 "$2"; task c 20000 20000 5000 "$3"; }
  $ with_m() { printf 'section = [{ locks = ["m"], at = %s, len = %s }]' $1 $2; }
  $ document() { case $1 in
  >   alone) task a 1000 1000 1 ;;
  >   admitted) task a 1000 1000 300; task b 2000 2000 500 ;;
  >   too-much) task a 1000 1000 300; task b 2000 2000 1500 ;;
  >   too-late) task a 1000 1000 300; task b 2000 200 500 ;;
  >   late) three 'jitter = 1000' ;;
  >   later) three 'jitter = 1001' ;;
  >   a-over-b) three 'outranks = ["b"]' ;;
  >   c-over-a) three '' '' 'outranks = ["a"]' ;;
  >   each-other) three 'outranks = ["b"]' 'outranks = ["a"]' ;;
  >   full-order) sed 's/^deadline = 200000/deadline = 100000/' examples/own-order.toml ;;
  >   timers) printf 'node = { job = 30, release = 10 }\ninterrupt = [{ period = 1000, cost = 50 }]\n'; task x 2000 2000 400; task y 5000 5000 900 ;;
  >   overrun) task x 1000 1000 600; task y 1000 1000 600 ;;
  >   late-overrun) task x 1000 1000 600 'jitter = 300'; task y 1000 1000 600 'jitter = 300' ;;
  >   both-late) task u 10000 2000 3000; task v 10000 2500 3000 ;;
  >   *) cat examples/$1.toml ;;
  > esac; }

Certificates
------------

Of tasks that must stand above others a failure by demand serves, too; a version serves for what is in its set alone:

  $ certified() { { printf 'desk-certificate %s\n' "$2"; printf "$3"; echo end; } > cert; document $1 > set; desk check set cert 2> told; }
  $ above='fails b 1 11000 14000\nlevel 2 b 6000\nfails a over b\nlevel 3 a 3000\n'
  $ best='best 3\nlevel 1 c 20000\nfails a 1 11000\nfails b 1 11000 14000\nlevel 2 a 6000\nlevel 3 b 3000\n'
  $ certified a-over-b 2 "best 3\nlevel 1 c 20000\nfails a 1 11000\n$above"
  best
  $ certified a-over-b 2 "best 3\nlevel 1 c 20000\nfails a over c\n$above"
  refused: BadChain 1 a
  [5]
  $ certified a-over-b 2 "best 3\nlevel 1 c 20000\nfails a over z\n$above"
  refused: BadChain 1 a
  [5]
  $ certified a-over-b 1 "best 3\nlevel 1 c 20000\nfails a 1 11000\nfails b 1 11000 14000\nlevel 2 b 6000\nfails a 1 11000\nlevel 3 a 3000\n"
  refused: WrongVersion
  [5]
  $ certified each-other 2 'none 2\nmember a over b\nmember b over a\n'
  no order
  $ certified each-other 2 'none 1\nmember a over b\n'
  refused: BadChain 0 a
  [5]
  $ for version in 1 2 4; do certified three-tasks $version "$best"; certified late $version "$best"; certified later $version "$best"; done
  best
  refused: WrongVersion
  refused: WrongVersion
  best
  best
  refused: BadPass 1
  refused: WrongVersion
  refused: WrongVersion
  refused: WrongVersion
  [5]

A task may have the name `over`; what stands behind `over` is one name, and no certificate of version 1 has it:

  $ certified empty-set 2 'none 1\nmember over over over\n'
  refused: WrongTasks 0
  [5]
  $ for version in 2 4; do certified empty-set $version 'best 1\nlevel 1 over 1\nfails over over over\n'; done
  refused: WrongTasks 0
  refused: WrongVersion
  [5]
  $ certified empty-set 1 'none 1\nmember a over b\n'
  refused: BadLine 3
  [5]
  $ certified empty-set 1 'best 1\nlevel 1 c 20000\nfails a over b\n'
  refused: BadLine 4
  [5]
  $ certified empty-set 2 'none 1\nmember a over b c\n'
  refused: BadLine 3
  [5]
  $ certified empty-set 2 'none 1\nmember a over 1\n'
  refused: BadLine 3
  [5]

With an interrupt each 1000 of 100 lo takes 20000, three times 1000 of hi, twice 2000 of mid and 30 interrupts; mid 2000, 4000
of lo, 1000 of hi and 8 interrupts; hi 1000, 4000 of lo and 6 interrupts. hi's 5000 covers its demand but for these:

  $ { printf 'interrupt = [{ period = 1000, cost = 100 }]\n'; cat examples/shared-lock.toml; } > examples.toml
  $ desk certify examples.toml | tee cert
  desk-certificate 4
  best 3
  level 1 lo 30000
  level 2 mid 7800
  level 3 hi 5600
  end
  $ desk check examples.toml cert
  best
  $ sed 's/hi 5600/hi 5000/' cert | desk check examples.toml -
  refused: BadPass 3
  [5]
  $ sed 's/lo 30000/lo 29999/' cert | desk check examples.toml -
  refused: BadPass 1
  [5]
  $ for version in 1 2; do sed "1s/4/$version/" cert | desk check examples.toml - 2> told; done
  refused: WrongVersion
  refused: WrongVersion
  [5]
  $ { printf 'interrupt = [{ period = 1000, cost = 100 }]\n'; task x 1000 1000 1000; } | desk certify -
  desk-certificate 4
  none 1
  member x 1 1100
  end
  [3]

With a timer of 1 of each task, which the costs have in them where `job` is 1, too, a job of x takes 1001; of the two that pass
to the tick, hi takes 2000, 2500 of lo and a timer of each:

  $ timers() { printf 'node = { job = 1, release = 1 }\n'; document $1; }
  $ task x 10000 10000 1000 > one.toml
  $ { printf 'node = { job = 1, release = 1 }\n'; cat one.toml; } | desk certify - | sed -n 3p
  level 1 x 1001
  $ timers blocked-out-repaired > timers.toml
  $ desk certify timers.toml | tee cert
  desk-certificate 4
  none 1
  member hi 1 4502
  end
  $ desk check timers.toml cert
  no order
  $ sed 's/4502/4503/' cert | desk check timers.toml -
  refused: BadChain 0 hi
  [5]
  $ printf 'desk-certificate 4\nbest 2\nlevel 1 lo 14003\nfails hi 1 12002\nlevel 2 hi 4500\nend\n' | desk check timers.toml -
  refused: BadPass 2
  [5]
  $ for version in 1 2; do sed "1s/4/$version/" cert | desk check timers.toml - 2> told; done
  refused: WrongVersion
  refused: WrongVersion
  [5]
  $ timers each-other > timers.toml
  $ desk certify timers.toml | tee cert
  desk-certificate 4
  none 3
  member a over b
  member b over a
  member c 1 11003 14004 20006
  end
  $ desk check timers.toml cert
  no order
  $ printf 'desk-certificate 4\nnone 2\nmember a over b\nmember b over a\nend\n' | desk check timers.toml -
  no order
  $ printf 'desk-certificate 2\nnone 2\nmember a over b\nmember b over a\nend\n' | desk check timers.toml - 2> told
  refused: WrongVersion
  [5]

The order of one's own, in a certificate:

  $ desk certify examples/own-order.toml
  desk-certificate 2
  best 5
  level 1 log 100000
  fails brake over steer
  fails camera over map
  level 2 map 58000
  fails brake over steer
  fails camera over map
  level 3 camera 16000
  fails brake over steer
  level 4 steer 2500
  fails brake over steer
  level 5 brake 500
  end

Limits
------

The headroom of each task, in the best order and with some order, and the factors. In the best order of the second set a stands
below b, which takes a job of b of it. Of the set with timers the costs are with what the node takes, 420 and 920: with x above,
y has room at 4000 while 920 + 2 x + 2 * 10 + 10 + 4 * 50 is at most that, and x at 5000 while y + 3 * 420 + 3 * 10 + 10 + 5 * 50
is; with x below, as in the best order, x + y + 2 * 10 + 2 * 50 = 1460 is at most 2000, which is 1.369 times that. With x above,
y has 920 + 3 * (420 + 10) + 10 + 5 * 50 = 2470 at 5000, which is 2.024 times that:

  $ headrooms() { document $1 > set; desk limits set 2> notes | sed -nE 's/^(all|[a-z]* cost) /\1 /p'; }
  $ headrooms alone
  a cost 1 1000 1000 by period
  all 1000000 1000000 a
  $ headrooms admitted
  a cost 300 500 750
  b cost 500 700 1400
  all 1250 1818 b
  $ headrooms too-much
  a cost 300 - 250
  b cost 1500 - 1400
  all - 952 b
  $ headrooms too-late
  b cost 500 - 200
  all - 400 b
  $ headrooms demand-of-the-deadline
  p cost 4000 5000 5000
  q cost 5000 6000 6000
  all 1111 1111 p
  $ headrooms obstruction-of-one
  x cost 3000 - 2000
  all - 666 x
  $ headrooms late
  a cost 3000 3000 3000
  b cost 3000 3000 3000
  c cost 5000 5000 5000
  all 1000 1000 c
  $ headrooms later
  a cost 3000 - 2999
  b cost 3000 - 2999
  c cost 5000 - 4999
  all - 999 c
  $ headrooms a-over-b
  a cost 3000 3000 3000
  b cost 3000 3000 3000
  c cost 5000 5000 5000
  all 1000 1000 c
  $ headrooms c-over-a
  a cost 3000 - 2000
  c cost 5000 - 3000
  all - 857 b
  $ headrooms each-other
  all - -
  $ headrooms blocked-out-repaired
  hi cost 2000 2000 2000
  lo cost 10000 40000 40000
  all 1000 1000 hi
  $ headrooms full-order
  brake cost 500 500 500
  camera cost 10000 10000 10000
  log cost 20000 20000 20000
  map cost 20000 20000 20000
  steer cost 2000 2000 2000
  all 1000 1000 log
  $ document timers > timers.toml
  $ desk limits timers.toml | grep -e cost -e 'y period' -e 'y jitter' -e all
  x cost 400 940 1405
  y cost 900 1440 3430
  y period 5000 1460 1460 with deadline 1460 1460
  y jitter 0 3540 3540
  interrupt 1 cost 50 320 556
  all 1369 2024 y

Explain
-------

Two sections of a block longest: the first of them that the task or one above uses, and of its locks q, since only a uses r:

  $ { task a 100000 100000 2000 'section = [{ locks = ["z"], at = 0, len = 500 }, { locks = ["r", "q", "p"], at = 600, len = 300 }, { locks = ["p"], at = 1000, len = 300 }]'
  >   task b 50000 50000 1000 "weight = 1
  > $(with_m 0 300 | sed s/m/p/)"; task top 10000 10000 400 'weight = 2
  > section = [{ locks = ["p"], at = 0, len = 100 }, { locks = ["q"], at = 200, len = 100 }]'; } > blocker.toml
  $ desk explain blocker.toml 2> notes
  admitted 3
  1 a 3400 of 100000
    cost 2000
    above top 1 jobs 400
    above b 1 jobs 1000
  2 b 1700 of 50000
    cost 1000
    blocked 300 by a section 2 lock q, ceiling by top
    above top 1 jobs 400
  3 top 700 of 10000
    cost 400
    blocked 300 by a section 2 lock q
  load 80000

Any two of four collide: the two of greatest rank are left:

  $ for name in a b c d; do task $name 10000 10000 6000; done | desk explain - 2> notes | sed -n '2,9p'
  conflict c d
  c 12000 of 10000
    cost 6000
    above d 1 jobs 6000
  d 12000 of 10000
    cost 6000
    above c 1 jobs 6000
  load 2400000

  $ conflict() { document $1 | desk explain - 2> notes | sed '1d; /^load/q'; }
  $ conflict later
  conflict a b c
  a 12001 of 7000
    cost 3000
    jitter 1001
    above c 1 jobs 5000
    above b 1 jobs 3000
  b 14000 of 12000
    cost 3000
    above c 1 jobs 5000
    above a 2 jobs 6000
  c 23000 of 20000
    cost 5000
    above b 2 jobs 6000
    above a 4 jobs 12000
  load 928572
  $ conflict c-over-a
  conflict a c
  a 8000 of 7000
    cost 3000
    above c 1 jobs 5000
  c must be above a
  load 928572
  $ conflict each-other
  conflict a b
  a must be above b
  b must be above a
  load 928572
  $ conflict obstruction-of-one
  conflict x
  x 3000 of 2000
    cost 3000
  load 310000
  $ document late | desk explain - | sed '1d'
  1 c 20000 of 20000
    cost 5000
    above b 2 jobs 6000
    above a 3 jobs 9000
  2 a 7000 of 7000
    cost 3000
    jitter 1000
    above b 1 jobs 3000
  3 b 3000 of 12000
    cost 3000
  load 928572

995 with what the node takes of the job, its timer and a job of the second interrupt are past the deadline at once:

  $ { printf 'node = { job = 20, lock = 2, late = 15, release = 5 }\n[[interrupt]]\nperiod = 2000\ncost = 0\n[[interrupt]]\nperiod = 4000\ncost = 17\n'; task x 1000 1000 980; } | desk explain - 2> notes | sed -n '2,8p'
  conflict x
  x 1032 of 1000
    cost 980
    node 15
    jitter 15
    timers 5
    interrupt 2 1 jobs 17

Judge
-----

  $ judged() { document $1 > set; printf "$2" | desk judge set - $3 2> told; }
  $ judged three-tasks 'thread a 20\nthread b 30\nthread c 10\n'
  meets 3
  1 c 20000 of 20000 at 10
  2 a 6000 of 7000 at 20
  3 b 3000 of 12000 at 30
  $ judged three-tasks 'thread a 1\nthread b 2\nthread c 1000000'
  misses a
  1 a misses 7000 needs 11000 at 1
  2 b 8000 of 12000 at 2
  3 c 5000 of 20000 at 1000000
  [3]
  $ judged three-tasks '# the highest first\nthread a 3\n\nthread c 2\nthread b 1\n'
  misses b
  1 b misses 12000 needs 14000 at 1
  2 c 11000 of 20000 at 2
  3 a 3000 of 7000 at 3
  [3]
  $ judged three-tasks 'thread b 1\nthread a 2\nthread c 3\n'
  misses a b
  1 b misses 12000 needs 14000 at 1
  2 a misses 7000 needs 8000 at 2
  3 c 5000 of 20000 at 3
  [3]
  $ judged late 'thread c 1\nthread a 2\nthread b 3\n'
  meets 3
  1 c 20000 of 20000 at 1
  2 a 7000 of 7000 at 2
  3 b 3000 of 12000 at 3
  $ judged a-over-b 'thread a 1\nthread b 2\nthread c 3\n'
  misses a
  1 a below b at 1
  2 b 8000 of 12000 at 2
  3 c 5000 of 20000 at 3
  [3]
  $ judged each-other 'thread c 1\nthread a 2\nthread b 3\n'
  misses a
  1 c 20000 of 20000 at 1
  2 a below b at 2
  3 b 3000 of 12000 at 3
  [3]
  $ judged shared-lock 'thread hi 90\nthread mid 50\nthread lo 7\nmutex m 90\n'
  meets 3
  1 lo 27000 of 100000 at 7
  2 mid 7000 of 20000 at 50
  3 hi 5000 of 10000 at 90
  $ judged shared-lock 'mutex m 3\nthread mid 1\nthread lo 2\nthread hi 3\n'
  misses mid
  1 mid misses 20000 needs 23000 at 1
  2 lo 23000 of 100000 at 2
  3 hi 5000 of 10000 at 3
  [3]
  $ judged shared-lock-node 'thread mid 1\nthread lo 2\nthread hi 3\n'
  misses mid
  1 mid misses 20000 needs 23096 at 1
  2 lo 23215 of 100000 at 2
  3 hi 5083 of 10000 at 3
  [3]
  $ judged blocked-out 'thread lo 1\nthread hi 2\n'
  misses hi
  1 lo 14000 of 50000 at 1
  2 hi misses 4400 needs 4500 at 2
  [3]
  $ judged blocked-out 'thread hi 1\nthread lo 2\nmutex m 2\n'
  misses hi
  1 hi misses 4400 needs 12000 at 1
  2 lo 10500 of 50000 at 2
  [3]
  $ judged empty-set ''
  meets 0
  $ judged shared-lock 'thread lo 1000000\nthread mid 5\nthread hi 2\nmutex m 1000000\n' --lower-is-higher
  refused: WrongCeiling m
  [4]
  $ judged shared-lock 'thread lo 2\nthread mid 5\nthread hi 1000000\nmutex m 999999\n' --lower-is-higher
  refused: WrongCeiling m
  [4]

Each refusal, and which comes first; of two locks either both mutexes stand or none:

  $ for text in 'thread hi 1 \n' 'thread hi 0\n' 'thread hi 1000001\n' 'mutex m 1000001\n' 'thread hi 01\n' 'thread hi -1\n' 'fred hi 1\n' 'thread 1hi 1\n' 'thread hi 1\r\n'; do judged shared-lock "$text"; done | uniq -c | sed 's/^ *//'
  9 refused: BadLine 1
  $ judged shared-lock '# hi\n\nthread hi\n'
  refused: BadLine 3
  [4]
  $ judged shared-lock 'thread nobody 1\nthread hi\n'
  refused: BadLine 2
  [4]
  $ for text in 'mutex q 1\nthread nobody 1\n' 'mutex q 1\nthread hi 1\nthread hi 1\n' 'thread hi 1\nmutex m 1\nmutex m 1\nthread hi 1\n' 'thread hi 1\nmutex m 1\nthread mid 1\nmutex m 1\n' 'thread hi 1\nthread lo 1\n' '' 'thread lo 1\nmutex m 9\n' 'thread lo 1\nthread mid 2\n' 'thread lo 1\nthread mid 2\nthread hi 3\nmutex m 2\n' 'thread lo 1\nthread mid 2\nthread hi 3\nmutex m 4\n'; do judged shared-lock "$text"; done
  refused: UnknownTask 2
  refused: UnknownLock 1
  refused: SameTask 4
  refused: SameLock 4
  refused: SameNumber 2
  refused: MissingTask lo
  refused: MissingTask mid
  refused: MissingTask hi
  refused: WrongCeiling m
  meets 3
  1 lo 27000 of 100000 at 1
  2 mid 7000 of 20000 at 2
  3 hi 5000 of 10000 at 3
  $ { task x 10000 10000 1000 'section = [{ locks = ["m", "n"], at = 0, len = 100 }]'; task y 20000 20000 2000 'section = [{ locks = ["n"], at = 0, len = 200 }]'; } > two-locks.toml
  $ for mutexes in '' 'mutex n 2\nmutex m 1\n' 'mutex n 2\n' 'mutex m 2\n' 'mutex m 2\nmutex n 1\n' 'mutex n 1\nmutex m 1\n'; do printf "thread x 1\nthread y 2\n$mutexes" | desk judge two-locks.toml - 2> told; done
  meets 2
  1 x 3000 of 10000 at 1
  2 y 2100 of 20000 at 2
  meets 2
  1 x 3000 of 10000 at 1
  2 y 2100 of 20000 at 2
  refused: MissingLock m
  refused: MissingLock n
  refused: WrongCeiling n
  refused: WrongCeiling n
  [4]

Settings
--------

Of three tasks the order that keeps one above another; those in the way, or the pair that has to change:

  $ kept() { document $1 > set; printf "$2" | desk settings set --keep - 2> told; }
  $ kept three-tasks 'thread b 1\nthread a 2\n'
  thread c 1
  thread b 2
  thread a 3
  # moved b 1 2
  # moved a 2 3
  $ kept three-tasks 'thread c 1\nthread b 2\n'
  thread c 1
  thread a 2
  thread b 3
  # moved b 2 3
  $ kept three-tasks 'thread a 1\nthread c 2\n'
  parted a c
  [3]
  $ kept three-tasks-too-tight 'thread a 1\nthread b 2\n'
  infeasible a b c
  [3]
  $ kept own-order 'thread map 1\nthread log 2\n'
  parted map log
  [3]
  $ kept own-order 'thread brake 1\nthread camera 2\n'
  parted brake camera
  [3]
  $ kept shared-lock 'thread hi 9\nthread gone 5\nthread lo 3\nthread mid 7\n'
  thread lo 3
  thread mid 7
  thread hi 9
  mutex m 9
  $ kept shared-lock 'mutex none 1\nmutex none 1\nthread mid 1000000\n' | head -n 1
  thread lo 1
  $ for text in 'thread gone 1\nthread gone 1\nthread\n' 'thread gone 1\nthread other 1\nthread gone 2\n' 'thread gone 1\nthread lo 1\n' 'thread lo 0\n'; do kept shared-lock "$text"; done
  refused: BadLine 3
  refused: SameTask 3
  refused: SameNumber 2
  refused: BadLine 1
  [4]

Worst cases
-----------

In orders that are given. hi, below lo, begins at 10000; x is left 400 of 600, and where both come 300 late 100:

  $ worst() { document $1 > set; printf "$2" | desk worst set --at - --task $3 2> told; }
  $ worst blocked-out 'thread hi 1\nthread lo 2\n' hi
  # hi misses 4400
  thread hi 1
  thread lo 2
  mutex m 2
  until 12000
  0 hi
  0 lo
  [3]
  $ worst overrun 'thread x 1\nthread y 2\n' x | sed 1,3d
  until 1200
  0 x
  0 y
  $ worst late-overrun 'thread x 1\nthread y 2\n' x | sed 1,3d
  until 1500
  0 x 300
  0 y 300
  $ worst both-late 'thread u 1\nthread v 2\n' v | sed 1,3d
  until 3000
  0 v
  $ worst both-late 'thread u 1\nthread v 2\n' u | sed 1,3d
  until 6000
  0 u
  0 v

Above lo, whose section holds it up for 4000, hi needs 5000, a tick more than its deadline:

  $ { task hi 10000 4999 1000 "$(with_m 0 200)"; task lo 100000 100000 20000 "$(with_m 100 4000)"; } > tick.toml
  $ printf 'thread lo 1\nthread hi 2\n' | desk worst tick.toml --at - --task hi
  # hi within-a-tick
  thread lo 1
  thread hi 2
  mutex m 2
  until 5100
  0 lo
  101 hi
  [3]
  $ printf 'thread lo 1\nthread hi 2\n' | desk worst tick.toml --at - --task lo | head -n 1
  # lo 23000 of 23000

By the analysis lo needs 6000, two jobs of hi. But from 2500 on it is in its section, which hi can't enter: it is done at 4500,
and hi's second job comes after it. With a tick behind the section that job comes first:

  $ inside() { task hi 4000 4000 1500 "$(with_m 0 100)"; task lo 10000 5000 $1 "$(with_m 1000 2000)"; }
  $ inside 3000 > inside.toml
  $ printf 'thread lo 1\nthread hi 2\n' | desk worst inside.toml --at - --task lo
  # lo ends-inside-a-section
  thread lo 1
  thread hi 2
  mutex m 2
  until 5000
  0 lo
  0 hi
  4000 hi
  [3]
  $ inside 3001 > behind.toml
  $ printf 'thread lo 1\nthread hi 2\n' | desk worst behind.toml --at - --task lo | sed 1,4d
  until 6001
  0 lo
  0 hi
  4000 hi

Below 10,000 jobs of hi lo lacks a tick:

  $ { task hi 1000 1000 1; task lo 10000000 10000000 9990001; } > long.toml
  $ printf 'thread lo 1\nthread hi 2\n' | desk worst long.toml --at - --task lo
  # lo too-many-releases
  thread lo 1
  thread hi 2
  until 0
  [3]

Runs
----

  $ ran() { document $1 > set; printf "$2" | desk simulate set - 2> told; }
  $ ran overrun 'thread x 1\nthread y 2\nuntil 2000\n0 x\n0 y\n1000 x\n1000 y\n'
  0 600 y
  600 1000 x
  job x 0 -
  job y 0 600
  $ ran overrun 'thread x 1\nthread y 2\nuntil 1000\n0 x\n0 y\n'
  0 600 y
  600 1000 x
  job x 0 -
  job y 0 600
  $ ran late-overrun 'thread x 1\nthread y 2\nuntil 2000\n0 x 300\n0 y\n1000 x 200\n1000 y 100\n'
  0 600 y
  600 1100 x
  1100 1200 y
  job x 0 -
  job y 0 600
  job y 1000 -
  $ ran late-overrun 'thread x 1\nthread y 2\nuntil 300\n0 x 300\n200 y\n'
  refused: PastHorizon
  [4]
  $ ran late-overrun 'thread x 1\nthread y 2\nuntil 1400\n0 x 300\n200 y\n'
  200 800 y
  800 1400 x
  job x 0 1400
  job y 200 800
  $ ran late-overrun 'thread x 1\nthread y 2\nuntil 400\n0 x 301\n999 x\n'
  refused: TooSoon 2
  [4]
  $ ran blocked-out-repaired 'thread hi 1\nthread lo 2\nuntil 20000\n0 lo\n1000 hi\n'
  0 10000 lo
  10000 12000 hi
  job lo 0 10000
  job hi 1000 12000
  $ ran shared-lock 'until 100000\n0 lo runs 2000\n200 mid runs 2000\n300 hi runs 1000\n'
  0 2000 lo
  2000 3000 hi
  3000 5000 mid
  job lo 0 2000
  job mid 200 5000
  job hi 300 3000
  $ ran shared-lock 'until 100000\n0 lo runs 100\n50 mid runs 500\n'
  0 50 lo
  50 550 mid
  550 600 lo
  job lo 0 600
  job mid 50 550
  $ ran shared-lock 'until 2\n0 lo runs 1\n1 lo runs 0\n'
  refused: TooSoon 2
  [4]

At every offset from 0 to 5000 between lo and the two above it mid takes 6999 at most and hi 4999, at first right after lo has
taken the lock. A list has 500 of these offsets, 110 ms apart, since lo comes each 100 ms:

  $ offsets() { echo until 60000000; for k in $(seq 0 $(($2 - $1))); do at=$((k * 110000)); echo $at lo; echo $((at + $1 + k)) mid; echo $((at + $1 + k)) hi; done; }
  $ for first in $(seq 0 500 5000); do last=$((first + 499)); [ $last -lt 5000 ] || last=5000; offsets $first $last | desk simulate examples/shared-lock.toml - | awk -v first=$first '/^job lo/ { at = $3 } /^job (mid|hi)/ { print $3 - at, $2, $4 - $3 }'; done > responses
  $ wc -l < responses | tr -d ' '
  10002
  $ for task in mid hi; do grep " $task " responses | sort -k 3,3n -k 1,1nr | tail -n 1; done
  101 mid 6999
  101 hi 4999
  $ grep '^100 hi ' responses
  100 hi 1000

Pictures
--------

Whole but for their looks and their legend, worked out from the definition apart from the program. A lock of b delays a, whose
second job isn't done at the end:

  $ bare() { sed '/^<style/,/^<rect class="p"/d; /^<path class="f0" d="M100 540/,/^<\/svg>/{/^<\/svg>/!d;}'; }
  $ { task a 1000 900 300 "jitter = 50
  > $(with_m 100 100)"; task b 2000 2000 600 "$(with_m 0 200)"; } > set.toml
  $ printf 'until 1300\n0 b\n50 a 50\n1050 a\n' | desk draw set.toml - | bare
  <?xml version="1.0" encoding="UTF-8"?>
  <svg xmlns="http://www.w3.org/2000/svg" version="1.1" width="960" height="312" viewBox="0 0 9600 3120">
  <title>tasks: 2, jobs: 3, until 1300 us</title>
  <text class="t" x="100" y="200">no deadline missed</text>
  <text x="100" y="390">tasks: 2, jobs: 3, until 1300 us</text>
  <path class="g" d="M1960 1230V2650"/><text class="s" x="1960" y="1200">0</text>
  <path class="g" d="M3104 1230V2650"/><text class="s" x="3104" y="1200">200</text>
  <path class="g" d="M4249 1230V2650"/><text class="s" x="4249" y="1200">400</text>
  <path class="g" d="M5393 1230V2650"/><text class="s" x="5393" y="1200">600</text>
  <path class="g" d="M6538 1230V2650"/><text class="s" x="6538" y="1200">800</text>
  <path class="g" d="M7683 1230V2650"/><text class="s" x="7683" y="1200">1000</text>
  <path class="g" d="M8827 1230V2650"/><text class="s" x="8827" y="1200">1200</text>
  <path class="l" d="M1960 1570H9400"/>
  <path class="g" d="M100 1690H9400"/><path class="l" d="M1960 2035H9400"/>
  <path class="g" d="M100 2170H9400"/><path class="l" d="M1960 2515H9400"/>
  <g id="n">
  <text x="500" y="1200">time in us</text>
  <text class="n" x="500" y="1460">processor</text><text x="500" y="1580">busy 88.4 %</text>
  <text class="v" x="300" y="1920">2</text><rect class="f7" x="350" y="1820" width="100" height="100" rx="20"/>
  <text class="n" x="500" y="1920"><title>done: 1, greatest response: 450, bound: 550 us</title>a</text>
  <text x="500" y="2045">bound 550 of 900 us</text>
  <text class="v" x="300" y="2400">1</text><rect class="f8" x="350" y="2300" width="100" height="100" rx="20"/>
  <text class="n" x="500" y="2400"><title>done: 1, greatest response: 900, bound: 900 us</title>b</text>
  <text x="500" y="2525">bound 900 of 2000 us</text>
  </g>
  <g id="k">
  <text x="100" y="2898">holds a lock:</text>
  <path class="k1" d="M900 2770H1100v180H900z"/><text class="c" x="1150" y="2898">m</text>
  </g>
  <path class="f8 o" d="M1960 1350H3104v220H1960z"><title>b executes 0 to 200 us</title></path>
  <text class="u" x="2532" y="1498">b</text>
  <path class="f7 o" d="M3104 1350H4821v220H3104z"><title>a executes 200 to 500 us</title></path>
  <text class="u" x="3962" y="1498">a</text>
  <path class="f8 o" d="M4821 1350H7110v220H4821z"><title>b executes 500 to 900 us</title></path>
  <text class="u" x="5965" y="1498">b</text>
  <path class="f7 o" d="M7969 1350H9400v220H7969z"><title>a executes 1050 to 1300 us</title></path>
  <text class="u" x="8684" y="1498">a</text>
  <path class="w" d="M1960 2335H7110v180H1960z"><title>b: arrival 0, done 900, response 900, bound 900, deadline 2000 us</title></path>
  <path class="w" d="M2246 1855H5393v180H2246z"><title>a: arrival 50, done 500, response 450, bound 550, deadline 900 us</title></path>
  <path class="w" d="M7969 1855H9400v180H7969z"><title>a: arrival 1050, not done, bound 550, deadline 900 us</title></path>
  <path class="a" d="M9400 1885m20 0l60 60-60 60m60-120l60 60-60 60"/>
  <path class="r" d="
  M2246 1945H2532
  "/>
  <path class="a" d="
  M1960 2620v-100m-35 50l35-50 35 50
  M2246 2140v-100m-35 50l35-50 35 50
  M7969 2140v-100m-35 50l35-50 35 50
  "/>
  <path class="b" d="
  M7110 2325h-35m35 0v40m0 120v40h-35
  M5393 1845h-35m35 0v40m0 120v40h-35
  "/>
  <path class="d" d="
  M7396 1750v100m0 0l-35-50h70z
  "/>
  <path class="wa i7" d="M3104 2425H4821"><title>b waits for a 200 to 500 us</title></path>
  <text class="wl" x="3962" y="2375">a</text>
  <path class="wb d1" d="M2562 1945H3074"><title>a is blocked by b with m 100 to 200 us</title></path>
  <path class="wj d1" d="M3104 1945V2335"/>
  <text class="wl" x="2818" y="1895">b</text>
  <path class="e f8" d="M1960 2335H3104v180H1960z"><title>b 0 to 200 us</title></path>
  <path class="h" d="M1960 2335H3104v180H1960z"><title>b holds m 0 to 200 us</title></path>
  <path class="k1" d="M1960 2335H3104v180H1960z"/>
  <text class="k" x="2532" y="2463"> m</text>
  <path class="e f7" d="M3104 1855H4821v180H3104z"><title>a 200 to 500 us</title></path>
  <path class="h" d="M3676 1855H4249v180H3676z"><title>a holds m 300 to 400 us</title></path>
  <path class="k1" d="M3676 1855H4249v180H3676z"/>
  <text class="k" x="3962" y="1983"> m</text>
  <path class="e f8" d="M4821 2335H7110v180H4821z"><title>b 500 to 900 us</title></path>
  <path class="e f7" d="M7969 1855H9400v180H7969z"><title>a 1050 to 1300 us</title></path>
  <path class="h" d="M8541 1855H9113v180H8541z"><title>a holds m 1150 to 1250 us</title></path>
  <path class="k1" d="M8541 1855H9113v180H8541z"/>
  <text class="k" x="8827" y="1983"> m</text>
  </svg>

a below b misses its deadline:

  $ { task a 1000 500 300; task b 2000 2000 600; } > tight.toml
  $ printf 'thread a 1\nthread b 2\nuntil 1250\n0 a\n0 b\n1000 a\n' | desk draw tight.toml - | bare
  <?xml version="1.0" encoding="UTF-8"?>
  <svg xmlns="http://www.w3.org/2000/svg" version="1.1" width="960" height="277" viewBox="0 0 9600 2770">
  <title>tasks: 2, jobs: 3, until 1250 us</title>
  <path class="x" d="M190 150h1"/><path class="y" d="M190 150m-38-38l76 76m0-76l-76 76"/>
  <text class="t q" x="320" y="200">deadlines missed: 1</text>
  <text x="100" y="390">tasks: 2, jobs: 3, until 1250 us</text>
  <path class="g" d="M1960 1230V2650"/><text class="s" x="1960" y="1200">0</text>
  <path class="g" d="M3150 1230V2650"/><text class="s" x="3150" y="1200">200</text>
  <path class="g" d="M4340 1230V2650"/><text class="s" x="4340" y="1200">400</text>
  <path class="g" d="M5531 1230V2650"/><text class="s" x="5531" y="1200">600</text>
  <path class="g" d="M6721 1230V2650"/><text class="s" x="6721" y="1200">800</text>
  <path class="g" d="M7912 1230V2650"/><text class="s" x="7912" y="1200">1000</text>
  <path class="g" d="M9102 1230V2650"/><text class="s" x="9102" y="1200">1200</text>
  <path class="l" d="M1960 1570H9400"/>
  <path class="g" d="M100 1690H9400"/><path class="l" d="M1960 2035H9400"/>
  <path class="g" d="M100 2170H9400"/><path class="l" d="M1960 2515H9400"/>
  <g id="n">
  <text x="500" y="1200">time in us</text>
  <text class="n" x="500" y="1460">processor</text><text x="500" y="1580">busy 92.0 %</text>
  <text class="v" x="300" y="1920">2</text><rect class="f8" x="350" y="1820" width="100" height="100" rx="20"/>
  <text class="n" x="500" y="1920"><title>done: 1, greatest response: 600, bound: 600 us</title>b</text>
  <text x="500" y="2045">bound 600 of 2000 us</text>
  <text class="v" x="300" y="2400">1</text><rect class="f7" x="350" y="2300" width="100" height="100" rx="20"/>
  <text class="n q" x="500" y="2400"><title>done: 1, greatest response: 900, bound: - us</title>a</text>
  <text x="500" y="2525">deadline 500 us</text>
  <text class="qn" x="500" y="2630">missed: 1, 400 us late</text>
  </g>
  <g id="k">
  </g>
  <path class="f8 o" d="M1960 1350H5531v220H1960z"><title>b executes 0 to 600 us</title></path>
  <text class="u" x="3745" y="1498">b</text>
  <path class="f7 o" d="M5531 1350H7316v220H5531z"><title>a executes 600 to 900 us</title></path>
  <text class="u" x="6423" y="1498">a</text>
  <path class="f7 o" d="M7912 1350H9400v220H7912z"><title>a executes 1000 to 1250 us</title></path>
  <text class="u" x="8656" y="1498">a</text>
  <path class="w" d="M1960 2335H4936v180H1960z"><title>a: arrival 0, done 900, response 900, bound -, deadline 500 us</title></path>
  <path class="w" d="M1960 1855H5531v180H1960z"><title>b: arrival 0, done 600, response 600, bound 600, deadline 2000 us</title></path>
  <path class="w" d="M7912 2335H9400v180H7912z"><title>a: arrival 1000, not done, bound -, deadline 500 us</title></path>
  <path class="a" d="M9400 2365m20 0l60 60-60 60m60-120l60 60-60 60"/>
  <path class="r" d="
  "/>
  <path class="a" d="
  M1960 2620v-100m-35 50l35-50 35 50
  M1960 2140v-100m-35 50l35-50 35 50
  M7912 2620v-100m-35 50l35-50 35 50
  "/>
  <path class="b" d="
  M5531 1845h-35m35 0v40m0 120v40h-35
  "/>
  <path class="d" d="
  M4936 2230v100m0 0l-35-50h70z
  "/>
  <path class="z" d="M4936 2315H7316v220H4936z"><title>a: arrival 0, done 900, response 900, deadline 500 us missed</title></path>
  <path class="x" d="M4936 2255h1"/><path class="y" d="M4936 2255m-38-38l76 76m0-76l-76 76"/>
  <path class="wa i8" d="M1960 2425H5531"><title>a waits for b 0 to 600 us</title></path>
  <text class="wl" x="3745" y="2375">b</text>
  <path class="e f8" d="M1960 1855H5531v180H1960z"><title>b 0 to 600 us</title></path>
  <path class="e f7" d="M5531 2335H7316v180H5531z"><title>a 600 to 900 us</title></path>
  <path class="e f7" d="M7912 2335H9400v180H7912z"><title>a 1000 to 1250 us</title></path>
  </svg>

No task, and no time:

  $ echo 'until 0' | desk draw examples/empty-set.toml - | bare
  <?xml version="1.0" encoding="UTF-8"?>
  <svg xmlns="http://www.w3.org/2000/svg" version="1.1" width="960" height="181" viewBox="0 0 9600 1810">
  <title>tasks: 0, jobs: 0, until 0 us</title>
  <text class="t" x="100" y="200">no deadline missed</text>
  <text x="100" y="390">tasks: 0, jobs: 0, until 0 us</text>
  <path class="g" d="M1960 1230V1690"/><text class="s" x="1960" y="1200">0</text>
  <path class="g" d="M9400 1230V1690"/><text class="s" x="9400" y="1200">1</text>
  <path class="l" d="M1960 1570H9400"/>
  <g id="n">
  <text x="500" y="1200">time in us</text>
  <text class="n" x="500" y="1460">processor</text><text x="500" y="1580">busy 0.0 %</text>
  </g>
  <g id="k">
  </g>
  <path class="r" d="
  "/>
  <path class="a" d="
  "/>
  <path class="b" d="
  "/>
  <path class="d" d="
  "/>
  </svg>

Release lists
-------------

  $ task x 1000 1000 1 > often.toml
  $ for until in 0 1 1000 1001; do desk releases often.toml $until; done
  until 0
  until 1
  0 x
  until 1000
  0 x
  until 1001
  0 x
  1000 x
  $ { task y 1000 1000 1000; task x 1000 1000 1000; } | desk releases - 1001 2> notes
  until 1001
  0 x
  0 y
  1000 x
  1000 y
  $ document late > late.toml
  $ desk releases late.toml 21000 | tail -n 1
  14000 a
  $ desk releases late.toml 21001 | tail -n 2
  21000 a
  21000 c
  $ { task x 1000 1000 10 'jitter = 900'; task y 1100 1100 10 'jitter = 50'; } > one-late.toml
  $ for until in 900 901 2001; do desk releases one-late.toml $until 2> notes; done
  until 900
  until 901
  0 x 900
  850 y 50
  until 2001
  0 x 900
  850 y 50
  1000 x
  1950 y
  2000 x
  $ { task a 2000 2000 10 'weight = 2
  > jitter = 7'; task b 1000 1000 10 'weight = 1
  > jitter = 7'; } > by-weight.toml
  $ desk releases by-weight.toml 8
  until 8
  0 b 7
  0 a 7
  $ desk releases by-weight.toml 2001 | sed 1,3d
  1000 b
  2000 b
  2000 a
  $ task x 10000000 10000000 1 | desk releases - 60000000 | sed -n '2p; 3p; $p'
  0 x
  10000000 x
  50000000 x

Random ones, as a program in another language draws them; all of such a list is run:

  $ desk releases by-weight.toml 6000 --seed 0
  until 6000
  605 b 3 runs 6
  1102 a 7 runs 7
  1960 b 3 runs 7
  2960 b runs 2
  3102 a
  3960 b 1 runs 7
  4960 b 1 runs 5
  5102 a 5 runs 8
  $ desk releases by-weight.toml 6000 --seed 0 | desk simulate by-weight.toml - | grep -c '^job'
  8
  $ desk releases examples/shared-lock.toml 7983 --seed 7
  until 7983
  $ desk releases often.toml 11000000 --seed 3 | desk simulate often.toml - | grep -c '^job'
  9798
  $ desk releases examples/empty-set.toml 5000 --seed 1
  until 5000
  $ for set in often.toml one-late.toml by-weight.toml late.toml examples/shared-lock.toml; do desk releases $set 2000000 2> notes | desk simulate $set - 2> notes > run || echo $set; done

Differences
-----------

From a at the lowest level, 1000 + 2000, and b above it:

  $ two() { task a 10000 10000 ${1-1000} "$2"; task b 20000 20000 ${3-2000}; }
  $ two > two.toml
  $ changed() { cat > new.toml; desk diff two.toml new.toml "$@" 2> notes | sed 1,2d; }
  $ two | changed
  $ two 1000 '' 2500 | changed
  changed b level 2 2 bound 2000 2500 slack 18000 17500 keys cost 2000 2500
  slower a level 1 1 bound 3000 3500 slack 7000 6500
  $ task a 10000 10000 1000 | changed
  removed b level 2 - bound 2000 - slack 18000 -
  faster a level 1 1 bound 3000 1000 slack 7000 9000
  $ { task A 100000 100000 100; two; } | changed
  added A level - 1 bound - 3100 slack - 96900
  moved a level 1 2 bound 3000 3000 slack 7000 7000
  moved b level 2 3 bound 2000 2000 slack 18000 18000
  $ for name in a b; do task $name 10000 10000 6000; done | changed
  changed a level 1 - bound 3000 - slack 7000 - keys cost 1000 6000
  changed b level 2 - bound 2000 - slack 18000 - keys period 20000 10000 deadline 20000 10000 cost 2000 6000
  $ two 1000 'weight = 1' | changed
  changed a level 1 2 bound 3000 1000 slack 7000 9000 keys weight 0 1
  slower b level 2 1 bound 2000 3000 slack 18000 17000
  $ locked() { task x 10000 10000 1000 "$(with_m 0 100)"; task y 20000 20000 2000 "$1"; }
  $ locked "$(with_m 0 2000)" > two.toml
  $ locked 'section = [{ locks = ["n"], at = 0, len = 2000 }]' | changed
  changed y level 2 2 bound 2100 2000 slack 17900 18000 keys section 1 m@0:2000 n@0:2000

Where a node's timers and interrupts come, they have lines of their own, and the tasks are slower:

  $ on_node() { printf 'node = { job = 5, release = 5 }\n[[interrupt]]\nperiod = 2000\ncost = 0\n[[interrupt]]\nperiod = 4000\ncost = 17\n'; cat; }
  $ two > two.toml
  $ two | on_node | changed
  node job 0 5 release 0 5
  interrupt 1 period - 2000 cost - 0
  interrupt 2 period - 4000 cost - 17
  slower a level 1 1 bound 3000 3027 slack 7000 6973
  slower b level 2 2 bound 2000 2027 slack 18000 17973
  $ two | on_node > two.toml
  $ two | on_node | changed
  $ { task A 100000 100000 100; two; } | on_node | changed
  added A level - 1 bound - 3132 slack - 96868
  slower a level 1 2 bound 3027 3032 slack 6973 6968
  slower b level 2 3 bound 2027 2032 slack 17973 17968

Preferences
-----------

The weights of a script are those by which the set is preferred: as they are, and by deadlines. Weights say the one thing and
deadlines the other; the shorter period has the longer deadline; two deadlines of two tasks each, and one of one:

  $ weighed() { cat > set; for order in weight deadline; do desk script set 1 --prefer $order 2> notes | sed -n 's/^put 1 \([^ ]* [0-9]*\) .*/\1;/p' | tr -d '\n'; echo; done; }
  $ { task short 9000 2000 100 'weight = 7'; task long 9000 9000 100 'weight = 1000'; task middle 9000 5000 100; } | weighed
  middle 0;short 7;long 1000;
  long 0;middle 1;short 2;
  $ { task p 4000 4000 100; task q 80000 3000 100; } | weighed
  p 0;q 0;
  p 0;q 1;
  $ { task e 9000 1000 100 'weight = 3'; task d 9000 8000 100; task c 9000 4000 100 'weight = 1'; task b 9000 8000 100 'weight = 2'; task a 9000 4000 100 'weight = 9'; } | weighed
  d 0;c 1;b 2;e 3;a 9;
  b 0;d 0;a 2;c 2;e 4;
  $ document demand-of-the-deadline | weighed
  p 0;q 0;
  p 0;q 1;
  $ for deadline in $(seq 1000 1031); do task t$deadline 2000 $deadline 1; done | weighed | tail -n 1 | cut -d ';' -f 1-3,30-32
  t1031 0;t1030 1;t1029 2;t1002 29;t1001 30;t1000 31

What a node takes is in a script's numbers; the tasks of `prefer` in front of it are by deadlines:

  $ { printf 'node = { job = 20, lock = 3, late = 7 }\n'; task a 10000 9000 1000 'jitter = 5
  > section = [{ locks = ["m", "n"], at = 0, len = 100 }, { locks = ["m"], at = 100, len = 50 }]'; } | desk script - 1 2> notes | grep put
  put 1 a 0 10000 9000 1029 j=12 node=20+3+0+7 m+n@20:106 m@126:53
  $ { printf 'prefer = "deadline"\n[node]\nlate = 7\n'; task b 1000 100 1; task a 1000 1000 1; } | desk script - 1 | grep put
  put 1 a 0 1000 1000 1 j=7 node=0+0+0+7
  put 1 b 1 1000 100 1 j=7 node=0+0+0+7
  $ for node in 'job = 993' 'job = 994' 'job = 10000000' 'late = 99' 'late = 100'; do { printf "node = { $node }\n"; task a 1000 $(case $node in late*) echo 100 ;; *) echo 1000 ;; esac) 7; } | desk admit - 2> told | tail -n 1; done
  1 a 1000
  refused: PaddedCost a
  refused: PaddedCost a
  infeasible a
  refused: PaddedJitter a

By each preference the same is refused:

  $ for order in weight deadline; do for text in 'task = [' 'job = []' 'task = [{ name = "a", period = 1000, deadline = 1000 }]' 'task = [{ name = "a", weight = 1001, period = 1000, deadline = 1000, cost = 1 }]' 'task = [{ name = "a", period = 1000, deadline = 1000, cost = 1 }, { name = "a", period = 1000, deadline = 900, cost = 1 }]' 'prefer = 1'; do printf "$text" | desk admit --prefer $order - 2> told; done; done | sort | uniq -c | sed 's/^ *//'
  2 refused: BadWeight 1
  2 refused: MissingKey 1 0 cost
  2 refused: SameName 2
  2 refused: Syntax
  2 refused: UnknownKey 0 0
  2 refused: WrongKind 0 0 prefer
  $ for text in 'prefer = "Deadline"' 'prefer = ""' 'prefer = "name"\ntask = [{ name = "a" }]'; do printf "$text" | desk admit - 2> told; done
  refused: BadPreference
  refused: BadPreference
  refused: BadPreference
  [4]

Teams
-----

Words of a line that are also names of tasks don't make their task the line's: `above` is cam's, `of` arm's:

  $ mkdir teams && { task a 1000 1000 1 "$(with_m 0 1)"; task of 2000 2000 1; } > teams/arm.toml
  $ task above 1000 1000 1 "$(with_m 0 1)" > teams/cam.toml
  $ desk explain teams 2> notes
  admitted 3
  1 a 3 of 1000 team arm
    cost 1
    above of 1 jobs 1 team arm
    above above 1 jobs 1 team cam
  2 above 3 of 1000 team cam
    cost 1
    blocked 1 by a section 1 lock m team arm
    above of 1 jobs 1 team arm
  3 of 1 of 2000 team arm
    cost 1
  load 2500

Texts of teams' documents, put together or refused:

  $ for text in '#%% cam 4\n#ok\n#%% arm 0\n' '#%% cam 0\nx' '#%% 2cam 0\n' '#%% cam 00\n'; do printf "$text" | desk admit - 2> told; done
  admitted 0
  refused: BadHead 2
  refused: BadHead 1
  refused: BadHead 1
  [4]
  $ one() { printf "task = [{ name = '$1', period = 1000, deadline = 1000, cost = $2}]"; }
  $ { printf '#%% cam 64\n'; one c 1; printf '#%% arm 64\n'; one a 1; } | desk admit -
  admitted 2
  1 a 2
  2 c 1
  $ { printf '#%% cam 64\n'; one c 1; printf '#%% arm 64\n'; one c 1; } | desk admit - 2> told
  refused: TakenName arm c cam
  [4]
  $ { printf '#%% cam 0\n#%% arm 64\n'; one a 0; } | desk admit - 2> told
  refused: team arm CostZero 1
  [4]

Traces
------

A third job of hi a tick too soon after the second, with a job of mid between; hi isn't done, and its bound is past by a tick at
the end; by how much a job breaks a promise, and by which tolerance it doesn't:

  $ seen() { printf "$1" | desk observe examples/shared-lock.toml - --jobless --tolerance ${2-0} 2> told; }
  $ seen '0 1000 hi\n10000 11000 hi\n15000 17000 mid\n19999 20999 hi\njob hi 0 1000\njob hi 10000 11000\njob mid 15000 17000\njob hi 19999 20999\n'
  task lo 0 0 20000 - 100000 - 27000
  task mid 1 2000 2000 - 20000 2000 7000
  task hi 3 1000 1000 9999 10000 1000 5000
  period hi 19999 9999 of 10000
  [3]
  $ seen '0 4001 lo\n4001 5001 hi\n5001 7001 mid\n7001 23000 lo\njob lo 0 23000\njob mid 0 7001\njob hi 1 5001\n'
  task lo 1 20000 20000 - 100000 23000 27000
  task mid 1 2000 2000 - 20000 7001 7000
  task hi 1 1000 1000 - 10000 5000 5000
  blocked mid 0 4001 of 4000 by lo 4001
  bound mid 0 7001 of 7000 after blocked mid 0
  [3]
  $ late='0 1000 hi\n10000 11003 hi\njob hi 0 1000\njob hi 10000 11003\n'
  $ for tolerance in 0 2 3; do seen "$late" $tolerance | grep -c '^cost hi 10000'; done
  1
  1
  0
  [1]
  $ for text in '' '0 10 x\n'; do printf "$text" | desk observe examples/cost-past-deadline.toml - 2> told; done
  infeasible x
  infeasible x
  [3]
  $ printf '5 5 x\n' | desk observe examples/cost-past-deadline.toml - 2> told
  refused: BadLine 1
  [4]
  $ for text in '0 10 hi\n9 20 lo\n5 5 lo\n' 'job hi 5 9\njob lo 4 -\n0 10 hi\n9 20 lo\n' '# lo has no job\n\n0 10 lo\n'; do seen "$text"; done
  refused: BadLine 3
  refused: SliceOverlap 4
  refused: NoJob 3
  [4]

Scripts
-------

Removals in their order: a put of the draft itself, its team's task, the same once more, another team's, and none:

  $ printf 'open 1\nput 1 a 0 10000 10000 1000\ncommit 1\nopen 2\nput 2 c 0 10000 10000 1000\ncommit 2\nopen 1\nput 3 d 0 10000 10000 1000\nremove 3 d\nremove 3 a\nremove 3 a\nremove 3 c\nremove 3 e\n' | desk play - | sed 1,8d
  ok
  ok
  refused NoSuchTask
  refused NotYours
  refused NoSuchTask
  version 2
  level 1 a 1 2000
  level 2 c 2 1000

A draft of version 0 stays there while another team commits three times; as many tasks as a set has:

  $ { echo open 1; for k in 1 2 3; do printf "open 2\nput $((k + 1)) b 0 10000 10000 1$((k - 1))00\ncommit $((k + 1))\n"; done; printf 'remove 1 b\ntest 1\n'; } | desk play - | tail -n 4
  refused NoSuchTask
  tested admitted
  version 3
  level 1 b 2 1200
  $ { echo open 1; for k in $(seq 32); do echo "put 1 t$k 0 10000 10000 1"; done; echo commit 1; } | desk play - | sed -n '34,36p'
  admitted 1
  version 1
  level 1 t1 1 32

Words
-----

Words that an option is no part of: twice, with no word or number, before the command, at another command, by half its name,
with a number that it doesn't take:

  $ while read -r words; do desk $words 2> told < /dev/null; [ $? = 2 ] || echo "$words"; done << 'END'
  > admit --prefer deadline --prefer deadline s
  > admit s --prefer
  > --prefer deadline admit s
  > play --prefer deadline s
  > rush s 3 --prefer deadline
  > admit --pref deadline s
  > admit --prefer-deadline s
  > releases s 100 --seed
  > releases s 100 --seed 4294967296
  > releases s 100 --seed -1
  > draw s r --tasks
  > draw s r --width 959
  > draw s r --to 60000001
  > simulate s r --from 1
  > simulate s r --tasks --tasks
  > observe s t --tolerance 60000001
  > observe s t --jobless --jobless
  > judge s t --tolerance 1
  > worst s --tolerance 1
  > settings s --keep
  > settings s --at n
  > judge s n --keep m
  > admit --prefer deadlines s
  > draw s r --prefer=weights
  > check - - --prefer x
  > END

And words that are right, where no file is there:

  $ while read -r words; do desk $words 2> told < /dev/null; [ $? = 7 ] || echo "$words"; done << 'END' | uniq -c | sed 's/^ *//'
  > admit a.toml
  > check s -
  > simulate - r
  > rush s 3
  > rush no +08
  > admit --prefer deadline s
  > diff a b --prefer weight
  > judge s --prefer deadline -
  > releases --prefer=deadline s 100
  > releases s 100 --seed 0
  > releases --seed=4294967295 s 100
  > simulate s --tasks r
  > draw s r --from=0 --to 60000000 --width 960 --title a:b --tasks a,b
  > observe s - --tolerance 60000000 --jobless
  > worst s --task a
  > worst --at n s --task=a
  > explain --at=- s
  > limits s --at n
  > settings s --keep n
  > settings --keep=- s --prefer=deadline
  > admit -- --prefer
  > END
  21 refused: ReadFailed
