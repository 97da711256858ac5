Each worked example that a command line can show, as it was worked out by hand before there was a program. (Those of
single calls, gates and interleavings stand in the crates of tests.)

  $ task() { printf '[[task]]\nname = "%s"\nperiod = %s\ndeadline = %s\ncost = %s\n' "$1" "$2" "$3" "$4"; }
  $ three() { task a 7000 7000 3000; task b 12000 12000 3000; task c 20000 20000 5000; }
  $ hi() { task hi 10000 "$1" 2000; echo 'section = [{ locks = ["m"], at = 0, len = 500 }]'; }
  $ lo() { task lo 50000 50000 10000; printf '[[task.section]]\nlocks = ["m"]\nat = 1000\nlen = 2500\n'; }

Sets
----

Empty set; one task that fills its period; demand of the deadline above it; cost past the deadline:

  $ desk admit - < /dev/null 2> /dev/null
  admitted 0
  $ task x 1000 1000 1000 | desk admit -
  admitted 1
  1 x 1000
  $ { task p 20000 11000 4000; task q 10000 10000 5000; } | desk admit -
  admitted 2
  1 p 9000
  2 q 5000
  $ task x 10000 2000 3000 | desk admit -
  infeasible x
  [3]
  $ task x 10000 2000 3000 | desk certify -
  desk-certificate 1
  none 1
  member x 1 3000
  end
  [3]

Three tasks; weighted; too tight:

  $ three | desk admit -
  admitted 3
  1 c 20000
  2 a 6000
  3 b 3000
  $ three | desk certify - | tee cert
  desk-certificate 1
  best 3
  level 1 c 20000
  fails a 1 11000
  fails b 1 11000 14000
  level 2 a 6000
  level 3 b 3000
  end
  $ wc -c < cert
  114
  $ { task a 7000 7000 3000; echo weight = 10; task b 12000 12000 3000; echo weight = 1; task c 20000 20000 5000; echo weight = 1; } | desk admit -
  admitted 3
  1 c 20000
  2 b 6000
  3 a 3000
  $ three | sed s/deadline.=.20000/deadline=19000/ | desk admit -
  infeasible a b c
  [3]
  $ three | sed s/deadline.=.20000/deadline=19000/ | desk certify -
  desk-certificate 1
  none 3
  member a 1 11000
  member b 1 11000 14000
  member c 1 11000 14000 17000 20000
  end
  [3]

Shared lock, and without the highest; blocked out, and repaired:

  $ mid() { task mid 20000 20000 2000; echo weight = 1; task lo 100000 100000 20000; echo 'section = [{ locks = ["m"], at = 100, len = 4000 }]'; }
  $ { mid; task hi 10000 10000 1000; echo weight = 2; echo 'section = [{ locks = ["m"], at = 0, len = 200 }]'; } | desk admit -
  admitted 3
  1 lo 27000
  2 mid 7000
  3 hi 5000
  $ mid | desk admit - 2> /dev/null
  admitted 2
  1 lo 24000
  2 mid 2000
  $ { hi 4400; lo; } | desk admit -
  infeasible hi
  [3]
  $ { hi 4400; lo; } | desk certify -
  desk-certificate 1
  none 1
  member hi 1 4500
  end
  [3]
  $ { hi 4500; lo; } | desk admit -
  admitted 2
  1 lo 14000
  2 hi 4500

Limits of a sheet:

  $ base() { printf '[[task]]\nname = "a"\nperiod = %s\ndeadline = %s\ncost = %s\n%s\n' "$1" "$2" "$3" "${4-}" | desk admit - 2> /dev/null | head -n 1; }
  $ sections() { base 10000 10000 5000 "section = [$1]"; }
  $ sections '{ locks = ["m"], at = 1000, len = 4000 }'
  admitted 1
  $ sections '{ locks = ["m"], at = 1000, len = 4001 }'
  refused: SectionPastCost 1 1
  $ sections '{ locks = ["m"], at = 0, len = 500 }, { locks = ["m"], at = 500, len = 500 }'
  admitted 1
  $ sections '{ locks = ["m"], at = 0, len = 501 }, { locks = ["n"], at = 500, len = 500 }'
  refused: Overlap 1 2
  $ sections '{ locks = ["m", "m"], at = 0, len = 1 }'
  refused: LockTwice 1 1
  $ sections "$(for i in 1 2 3 4 5 6 7 8 9; do echo "{ locks = [\"m\"], len = 1 },"; done)"
  refused: TooManySections 1
  $ base 999 900 5
  refused: BadPeriod 1
  $ base 1000 1000 5
  admitted 1
  $ base 10000000 10000 5
  admitted 1
  $ base 10000001 10000 5
  refused: BadPeriod 1
  $ base 10000 10001 5
  refused: DeadlinePastPeriod 1
  $ base 10000 10000 10001
  refused: CostPastPeriod 1
  $ base 10000 10000 5 'weight = 1000'
  admitted 1
  $ base 10000 10000 5 'weight = 1001'
  refused: BadWeight 1
  $ many() { for i in $(seq 1 "$1"); do task "t$i" 1000 1000 1; done | desk admit - | head -n 1; }
  $ many 32
  admitted 32
  $ many 33
  refused: TooManyTasks

Faulty documents (since tasks have a `jitter`, the key that none has is another one):

  $ printf '\377' | desk admit - 2> /dev/null
  refused: Syntax
  [4]
  $ echo 'x = 1' | desk admit - 2> /dev/null
  refused: UnknownKey 0 0
  [4]
  $ echo 'task = 1' | desk admit - 2> /dev/null
  refused: WrongKind 0 0 task
  [4]
  $ { task a 7000 7000 3000; echo 'jitters = 1'; } | desk admit - 2> /dev/null
  refused: UnknownKey 1 0
  [4]
  $ task a 7000 7000 3000 | grep -v cost | desk admit - 2> /dev/null
  refused: MissingKey 1 0 cost
  [4]
  $ task a -1 7000 3000 | desk admit - 2> /dev/null
  refused: WrongKind 1 0 period
  [4]
  $ task 9x 7000 7000 3000 | desk admit - 2> /dev/null
  refused: BadName 1 0
  [4]
  $ { task a 7000 7000 3000; task a 7000 7000 3000; } | desk admit - 2> /dev/null
  refused: SameName 2
  [4]

Certificates
------------

Other people's, of the three tasks and of the blocked out ones:

  $ three > three.toml
  $ { hi 4400; lo; } > out.toml
  $ desk check three.toml cert
  best
  $ checks() { { printf 'desk-certificate 1\n'; cat; echo end; } | desk check "$1" - 2> /dev/null; }
  $ printf 'best 3\nlevel 1 c 20000\nfails a 1 11000\nfails b 1 11000 14000\nlevel 2 b 6000\nlevel 3 a 3000\n' | checks three.toml
  refused: MissingFail 2 a
  [5]
  $ sed 's/c 20000/c 19999/; 1d; /end/d' cert | checks three.toml
  refused: BadPass 1
  [5]
  $ sed 's/14000/15000/; 1d; /end/d' cert | checks three.toml
  refused: BadChain 1 b
  [5]
  $ sed 's/ c / d /; 1d; /end/d' cert | checks three.toml
  refused: WrongTasks 0
  [5]
  $ printf 'none 1\nmember hi 1 4500\n' | checks out.toml
  no order
  $ printf 'none 2\nmember hi 1 12000\nmember lo 1 12000 14000\n' | checks out.toml
  refused: BadChain 0 lo
  [5]
  $ printf 'none 0\n' | checks out.toml
  refused: EmptySet
  [5]
  $ : | desk certify - 2> /dev/null | tee none
  desk-certificate 1
  best 0
  end
  $ wc -c < none
  30
  $ : > empty.toml
  $ desk check empty.toml none 2> /dev/null
  best
  $ desk check three.toml none 2> /dev/null
  refused: WrongTasks 0
  [5]

Bytes of a certificate: each proper prefix is cut short, one byte more is one too many:

  $ for i in $(seq 0 113); do head -c "$i" cert | desk check three.toml - 2> /dev/null; done | sort | uniq -c | sed 's/^ *//'
  114 refused: Truncated
  $ { cat cert; printf x; } | desk check three.toml - 2> /dev/null
  refused: Trailing
  [5]
  $ sed '1s/1/3/' cert | desk check three.toml - 2> /dev/null
  refused: BadHead
  [5]
  $ sed '3s/ /  /' cert | desk check three.toml - 2> /dev/null
  refused: BadLine 3
  [5]

Jitter and outranking
---------------------

  $ jittered() { sed "/\"a\"/a jitter = $1" three.toml; }
  $ jittered 1000 | desk admit -
  admitted 3
  1 c 20000
  2 a 7000
  3 b 3000
  $ jittered 1001 | desk admit -
  infeasible a b c
  [3]
  $ jittered 6999 | desk admit - | head -n 1
  infeasible a b c
  $ jittered 7000 | desk admit - 2> /dev/null
  refused: BadJitter 1
  [4]
  $ jittered 1000 | desk check - cert 2> /dev/null
  refused: WrongVersion
  [5]
  $ outranks() { sed "/\"$1\"/a outranks = [\"$2\"]" three.toml; }
  $ outranks a z | desk admit - 2> /dev/null
  admitted 3
  1 c 20000
  2 a 6000
  3 b 3000
  $ outranks a z | desk certify - 2> /dev/null | head -n 1
  desk-certificate 1
  $ outranks a a | desk admit - 2> /dev/null
  refused: OutranksSelf 1
  [4]
  $ outranks a b | desk admit -
  admitted 3
  1 c 20000
  2 b 6000
  3 a 3000

The kernel
----------

The holder runs on; released before the lock; released too soon; an overrun, and none:

  $ { hi 4500; lo; } > repaired.toml
  $ printf 'until 20000\n0 lo\n1001 hi\n' | desk simulate repaired.toml -
  0 3500 lo
  3500 5500 hi
  5500 12000 lo
  job lo 0 12000
  job hi 1001 5500
  $ printf 'until 20000\n0 lo\n1000 hi\n' | desk simulate repaired.toml - | grep -v job
  0 1000 lo
  1000 3000 hi
  3000 12000 lo
  $ task x 10000 10000 1000 > one.toml
  $ printf 'until 20000\n0 x\n9999 x\n' | desk simulate one.toml - 2> /dev/null
  refused: TooSoon 2
  [4]
  $ printf 'until 20000\n0 x\n10000 x\n' | desk simulate one.toml - | grep -v job
  0 1000 x
  10000 11000 x
  $ { task x 1000 1000 600; task y 1000 1000 400; } > two.toml
  $ printf 'until 2000\n0 x\n0 y\n1000 x\n1000 y\n' | desk simulate two.toml - | grep -v job
  0 400 y
  400 1000 x
  1000 1400 y
  1400 2000 x

Scripts
-------

No lines; an empty draft; teams that collide and that fit:

  $ desk play - < /dev/null
  version 0
  $ printf 'open 1\ntest 1\ncommit 1\n' | desk play -
  draft 1 version 0
  tested admitted
  admitted 1
  version 1
  $ collide() { printf '%s\n' 'open 1' 'open 2' "put 1 a 0 10000 10000 $1" "put 2 b 0 10000 10000 $1" 'test 1' 'test 2' 'commit 1' 'commit 2' 'commit 2'; }
  $ collide 6000 | desk play -
  draft 1 version 0
  draft 2 version 0
  ok
  ok
  tested admitted
  tested admitted
  admitted 1
  stale 1
  infeasible a b
  version 1
  level 1 a 1 6000
  $ collide 4000 | desk play -
  draft 1 version 0
  draft 2 version 0
  ok
  ok
  tested admitted
  tested admitted
  admitted 1
  stale 1
  admitted 2
  version 2
  level 1 a 1 8000
  level 2 b 2 4000
  $ collide 6000 > collide
  $ desk rush collide 2 2> /dev/null | sed 's/team 1/team X/; s/team 2/team Y/; s/[XY]/T/; s/level 1 [ab] [12]/level 1 T/; s/ [ab] [ab]$//'
  1 team T admitted 1
  2 team T infeasible
  version 1
  level 1 T 6000

Findings in any order:

  $ printf '%s\n' 'open 1' 'put 1 a 0 7000 7000 3000' 'put 1 b 0 12000 12000 3000' 'put 1 c 0 20000 20000 5000' 'open 2' \
  >     'put 2 a 0 7000 7000 3000' 'found 1 c' 'found 1 b' 'found 1 b' 'found 1 a 2' 'found 1 a' 'found 1 c' 'found 1 b' \
  >     'found 1 a' 'found 1 b' 'commit 1' 'commit 1' | desk play -
  draft 1 version 0
  ok
  ok
  ok
  draft 2 version 0
  ok
  taken
  taken
  refused Twice
  refused Stranger
  level 1 c 20000
  refused NoQuestion
  taken
  level 2 a 6000
  tested admitted
  admitted 1
  refused NoSuchDraft
  version 1
  level 1 c 1 20000
  level 2 a 1 6000
  level 3 b 1 3000

One name, two teams; tasks that must be outranked, by a script; a draft with too many tasks:

  $ printf '%s\n' 'open 1' 'open 2' 'put 1 a 0 10000 10000 1000' 'put 2 a 0 10000 10000 2000' 'commit 1' 'commit 2' 'open 2' 'remove 3 a' | desk play -
  draft 1 version 0
  draft 2 version 0
  ok
  ok
  admitted 1
  refused NotYours a
  draft 3 version 1
  refused NotYours
  version 1
  level 1 a 1 1000
  $ printf '%s\n' 'open 1' 'put 1 a 0 7000 7000 3000 over=b' 'commit 1' 'open 2' 'put 2 b 0 12000 12000 3000' 'commit 2' | desk play - | tail -n 4
  admitted 2
  version 2
  level 1 b 2 6000
  level 2 a 1 3000
  $ { echo open 1; for i in $(seq 1 33); do echo "put 1 t$i 0 1000 1000 1"; done; echo commit 1; } | desk play - | tail -n 2
  refused TooManyTasks
  version 0
  $ { echo open 1; for i in $(seq 1 64); do echo "put 1 t$i 0 1000 1000 1"; done; echo put 1 t65 0 1000 1000 1; echo put 1 t64 0 1000 1000 2; } | desk play - | tail -n 3
  refused DraftFull
  ok
  version 0

Words
-----

  $ three | desk | head -n 1
  admitted 3
  $ desk check - - < /dev/null 2> /dev/null
  [2]
  $ desk rush collide 9 2> /dev/null
  [2]
  $ desk rush collide 2 2> /dev/null | head -n 1 | cut -d' ' -f 1,2,4,5
  1 team admitted 1
