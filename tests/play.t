`desk play SCRIPT` plays a script of drafts, findings and commits on an empty desk: one printed line for each line of the
script, and then the book.

Two teams collide. The second draft was tested on a state that is not the present one any more: it is stale, and stays,
on the present state; there no order of both tasks passes.

  $ desk play examples/two-teams-collide.script
  draft 1 version 0
  draft 2 version 0
  ok
  ok
  tested admitted
  tested admitted
  admitted 1
  stale 1
  infeasible a b
  version 1
  level 1 a 1 6000

Two teams fit: the stale draft is tested again, and admitted. Of the orders a, b and b, a the first is the better.

  $ desk play examples/two-teams-fit.script
  draft 1 version 0
  draft 2 version 0
  ok
  ok
  tested admitted
  tested admitted
  admitted 1
  stale 1
  tested admitted
  admitted 2
  version 2
  level 1 a 1 8000
  level 2 b 2 4000

One name and two teams: the commit of a draft that was not tested is decided on the present state.

  $ desk play examples/one-name-two-teams.script
  draft 1 version 0
  draft 2 version 0
  ok
  ok
  admitted 1
  refused NotYours a
  draft 3 version 1
  refused NotYours
  version 1
  level 1 a 1 1000

A draft that removes a task comes to stand on a state where the name is another team's: it shows no task to remove, and a put
of the name is refused as that team's.

  $ desk play - << END
  > open 1
  > put 1 a 0 10000 10000 100
  > test 1
  > commit 1
  > open 1
  > remove 2 a
  > open 1
  > remove 3 a
  > test 3
  > commit 3
  > open 2
  > put 4 a 0 10000 10000 100
  > test 4
  > commit 4
  > test 2
  > commit 2
  > remove 2 a
  > put 2 a 0 10000 10000 100
  > END
  draft 1 version 0
  ok
  tested admitted
  admitted 1
  draft 2 version 1
  ok
  draft 3 version 1
  ok
  tested admitted
  admitted 2
  draft 4 version 2
  ok
  tested admitted
  admitted 3
  tested admitted
  stale 3
  refused NoSuchTask
  refused NotYours
  version 3
  level 1 a 2 100

Findings in any order over three tasks. A double is refused; so is a finding of another level; c is no candidate of
level 2.

  $ desk play examples/findings-in-any-order.script
  draft 1 version 0
  ok
  ok
  ok
  draft 2 version 0
  ok
  taken
  taken
  refused Twice
  refused Stranger
  level 1 c 20000
  refused NoQuestion
  taken
  level 2 a 6000
  tested admitted
  admitted 1
  refused NoSuchDraft
  version 1
  level 1 c 1 20000
  level 2 a 1 6000
  level 3 b 1 3000

An empty script, by three spellings:

  $ desk play /dev/null
  version 0



  $ printf '# nothing' | desk play -
  version 0



  $ printf '\n\n' | desk play -
  version 0

An empty draft has no level, so it is tested without any finding; its commit moves the version:

  $ printf 'open 1\ntest 1\ncommit 1\n' | desk play -
  draft 1 version 0
  tested admitted
  admitted 1
  version 1

So a draft without changes is stale where another was admitted before, though no line tested it:

  $ printf 'open 1\nopen 3\ncommit 1\ncommit 2\n' | desk play -
  draft 1 version 0
  draft 2 version 0
  admitted 1
  stale 1
  version 1

`test` of a draft that is complete says the same again, of one that has ended nothing:

  $ printf 'open 1\nput 1 a 0 10000 2000 3000\ntest 1\ntest 1\nfound 1 a\ncommit 1\ntest 1\n' | desk play -
  draft 1 version 0
  ok
  tested infeasible a
  tested infeasible a
  refused NoQuestion
  infeasible a
  refused NoSuchDraft
  version 0

A change drops the findings that were taken, and a change that is refused keeps them:

  $ printf 'open 1\nput 1 a 0 10000 10000 1000\nput 1 b 0 10000 10000 1000\nput 1 c 0 10000 10000 1000\nfound 1 c\nremove 1 x\nfound 1 c\nput 1 a 0 10000 10000 1000\nfound 1 c\n' | desk play -
  draft 1 version 0
  ok
  ok
  ok
  taken
  refused NoSuchTask
  refused Twice
  ok
  taken
  version 0

The last line may lack its LF, and abandoning ends a draft:

  $ printf 'open 1\nabandon 1\ncommit 1' | desk play -
  draft 1 version 0
  ok
  refused NoSuchDraft
  version 0

A draft of 33 puts can not be tested, and its commit is refused:

  $ (echo 'open 1'; for i in $(seq 1 33); do echo "put 1 t$i 0 10000 10000 1"; done; echo 'found 1 t1'; echo 'test 1'; echo 'commit 1') \
  > | desk play - | tail -n 4
  refused Untestable
  refused Untestable
  refused TooManyTasks
  version 0

The 65th name of a draft is refused, and a name that it has is not:

  $ (echo 'open 1'; for i in $(seq 1 65); do echo "put 1 t$i 0 10000 10000 1"; done; echo 'put 1 t64 0 10000 10000 2') \
  > | desk play - | tail -n 4
  ok
  refused DraftFull
  ok
  version 0

A stale draft is put on the present state. There its a belongs to the other team, so that it can not be tested any more.

  $ printf 'open 1\nopen 2\nput 1 a 0 10000 10000 1000\nput 2 a 0 10000 10000 1000\ntest 2\ncommit 1\ncommit 2\ntest 2\ncommit 2\n' | desk play -
  draft 1 version 0
  draft 2 version 0
  ok
  ok
  tested admitted
  admitted 1
  stale 1
  refused Untestable
  refused NotYours a
  version 1
  level 1 a 1 1000

A draft whose changes do not apply on its base can not be tested, but its commit is decided on the present state: team 1
has taken its a away in the meantime.

  $ printf 'open 1\nopen 2\nput 1 a 0 10000 10000 1000\nput 2 a 0 10000 10000 2000\ntest 2\ncommit 1\ncommit 2\nopen 1\nremove 3 a\ncommit 3\ntest 2\ncommit 2\n' | desk play -
  draft 1 version 0
  draft 2 version 0
  ok
  ok
  tested admitted
  admitted 1
  stale 1
  draft 3 version 1
  ok
  admitted 2
  refused Untestable
  admitted 3
  version 3
  level 1 a 2 2000

## Scripts that are refused

The first faulty line decides, and nothing of the script is played:

  $ printf 'open 1\nput 1 a 0 1000 1000 0\n' | desk play -
  refused: line 2 CostZero
  [4]
  $ printf 'open 1\nput 1 a 0 10000 10000 5000 m@0:501 n@500:500\n' | desk play -
  refused: line 2 Overlap 2
  [4]
  $ printf 'open 1\ncommit 2\n' | desk play -
  refused: BadLine 2
  [4]
  $ printf 'open 9\n' | desk play -
  refused: BadLine 1
  [4]
  $ printf 'open 0\n' | desk play -
  refused: BadLine 1
  [4]
  $ printf 'open 01\n' | desk play -
  refused: BadLine 1
  [4]
  $ printf '\n# c\nopen  1\n' | desk play -
  refused: BadLine 3
  [4]
  $ printf 'commit 1\nopen 1\n' | desk play -
  refused: BadLine 1
  [4]
  $ printf 'open 1\nput 1 a 0 1000 1000 0\nopen x\n' | desk play -
  refused: line 2 CostZero
  [4]
  $ printf 'open 1\nput 1 a 0 1000 1000 0 m@1\n' | desk play -
  refused: BadLine 2
  [4]
  $ printf 'open 1\nput 1 1a 0 1000 1000 1\n' | desk play -
  refused: BadLine 2
  [4]
  $ printf 'open 1\nfound 1 a 2\n' | desk play -
  refused: BadLine 2
  [4]
  $ printf 'open 1\nfound 1 a 1 1\n' | desk play -
  refused: BadLine 2
  [4]
  $ printf 'open 1\nput 1 a 0 1000 1000 1 m+m@0:1\n' | desk play -
  refused: line 2 LockTwice 1
  [4]
  $ printf 'open 1\nput 1 a 0 1000 1000 1 +@0:1\n' | desk play -
  refused: BadLine 2
  [4]
  $ printf 'open 1\r\n' | desk play -
  refused: BadLine 1
  [4]

Jitter and a name to outrank behind the cost:

  $ printf 'open 1\nput 1 a 0 7000 7000 3000 j=1000 over=b\ncommit 1\n' | desk play -
  draft 1 version 0
  ok
  admitted 1
  version 1
  level 1 a 1 4000

Interrupts are the node's: a task that is removed takes none along, also the last one, nor does a put that says none. Alone
b takes 5000 and ten interrupts of 500, one each 1000.

  $ desk play - << END
  > open 1
  > put 1 a 0 100000 100000 100 irq=1000:500
  > put 1 b 1 20000 20000 5000
  > commit 1
  > open 1
  > remove 2 a
  > commit 2
  > open 1
  > put 3 b 1 20000 9999 5000
  > commit 3
  > open 1
  > remove 4 b
  > commit 4
  > open 2
  > put 5 c 0 20000 9999 5000
  > test 5
  > commit 5
  > put 5 c 0 20000 10000 5000
  > open 2
  > put 6 c 0 20000 10000 5000
  > commit 6
  > END
  draft 1 version 0
  ok
  ok
  admitted 1
  draft 2 version 1
  ok
  admitted 2
  draft 3 version 2
  ok
  infeasible b
  draft 4 version 2
  ok
  admitted 3
  draft 5 version 3
  ok
  tested infeasible c
  infeasible c
  refused NoSuchDraft
  draft 6 version 3
  ok
  admitted 4
  version 4
  level 1 c 2 10000

Each team says its own, all of them at a time, with one that takes nothing for none. The teams have 8 together.

  $ desk play - > printed << END
  > open 1
  > put 1 a 0 100000 100000 100 irq=1000:500
  > commit 1
  > open 2
  > put 2 b 1 20000 20000 4000 irq=2000:500
  > commit 2
  > END
  $ tail -n 2 printed
  level 1 a 1 17600
  level 2 b 2 16000
  $ play() { desk play - | tail -n 2; }
  $ play << END
  > open 1
  > put 1 a 0 100000 100000 100 irq=1000:500
  > commit 1
  > open 2
  > put 2 b 1 20000 20000 4000 irq=2000:500
  > commit 2
  > open 2
  > put 3 b 1 20000 20000 4000 irq=100:0
  > commit 3
  > END
  level 1 a 1 8600
  level 2 b 2 8000
  $ eight() { { printf 'open 1\nput 1 a 0 10000 10000 100 irq=100:1'; printf '+100:1%.0s' $(seq 2 $1); printf '\ncommit 1\nopen 2\nput 2 b 0 10000 10000 100 irq=%s\ntest 2\ncommit 2\n' "$2"; } | desk play - | sed -n 6,7p; }
  $ eight 7 100:1
  tested admitted
  admitted 2
  $ eight 8 100:1
  refused Untestable
  refused TooManyInterrupts
  $ eight 8 100:0+200:0
  tested admitted
  admitted 2

16,777,216 bytes are read, one more is too many:

  $ head -c 16777216 /dev/zero | tr '\0' '#' | desk play -
  version 0
  $ head -c 16777217 /dev/zero | tr '\0' '#' | desk play -
  refused: InputTooLong
  [4]

A script that is not there:

  $ desk play no-such.script
  refused: ReadFailed
  [7]
