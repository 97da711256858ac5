`desk rush SCRIPT WORKERS` runs the lines of each team of a script on a thread of its own: one printed line for each entry
of the log, and then the book. What no thread of another team can change is compared as it is printed.

Two teams collide: the one that comes first is admitted, and the other is refused. Standard error tells of the line that comes
after the end of its draft.

  $ printf '1 team 1 admitted 1\n2 team 2 infeasible a b\nversion 1\nlevel 1 a 1 6000\n' > one
  $ printf '1 team 2 admitted 1\n2 team 1 infeasible a b\nversion 1\nlevel 1 b 2 6000\n' > other
  $ for workers in 1 2 8; do desk rush examples/two-teams-collide.script $workers > printed 2> told || echo $?; cmp -s printed one || cmp -s printed other || cat printed; cat told; done
  line 11: skipped, draft 2 has ended
  line 11: skipped, draft 2 has ended
  line 11: skipped, draft 2 has ended

Two teams fit: both are admitted, in either order, and the book is the same.

  $ for workers in 1 2 8; do desk rush examples/two-teams-fit.script $workers 2> told | sed 's/team [12]/team N/'; done
  1 team N admitted 1
  2 team N admitted 2
  version 2
  level 1 a 1 8000
  level 2 b 2 4000
  1 team N admitted 1
  2 team N admitted 2
  version 2
  level 1 a 1 8000
  level 2 b 2 4000
  1 team N admitted 1
  2 team N admitted 2
  version 2
  level 1 a 1 8000
  level 2 b 2 4000
  $ desk rush examples/two-teams-fit.script 2 2> told | grep -o 'team [12]' | sort
  team 1
  team 2
  $ cat told
  line 10: skipped, draft 2 has ended
  line 11: skipped, draft 2 has ended

Interrupts stay where the task that said them is removed: b takes 5000 and ten of 500.

  $ printf 'open 1\nput 1 a 0 100000 100000 100 irq=1000:500\nput 1 b 1 20000 20000 5000\ncommit 1\nopen 1\nremove 2 a\ncommit 2\n' | desk rush - 2
  1 team 1 admitted 1
  2 team 1 admitted 2
  version 2
  level 1 b 1 10000

One team alone: its entries come in the order of its lines. Its second draft is stale at its commit, which goes on until it
is decided.

  $ printf 'open 1\nopen 1\nput 1 a 0 10000 10000 4000\nput 2 b 0 10000 10000 4000\ncommit 1\ncommit 2\n' | desk rush - 2
  1 team 1 admitted 1
  2 team 1 admitted 2
  version 2
  level 1 a 1 8000
  level 2 b 1 4000

Findings and tests do nothing, also where they are on no candidate:

  $ printf 'open 8\nput 1 a 0 10000 10000 4000\nfound 1 a\nfound 1 x\nfound 1 a 1\ntest 1\ncommit 1\n' | desk rush - 1
  1 team 8 admitted 1
  version 1
  level 1 a 8 4000

Lines on a draft that has ended are skipped: after its commit, and after it was abandoned. Standard error tells of each.

  $ printf 'open 1\ncommit 1\n# its end\nput 1 a 0 10000 10000 4000\ncommit 1\ntest 1\nfound 1 a\nremove 1 a\nabandon 1\n' > ended
  $ desk rush ended 2 2> told
  1 team 1 admitted 1
  version 1
  $ cat told
  line 4: skipped, draft 1 has ended
  line 5: skipped, draft 1 has ended
  line 6: skipped, draft 1 has ended
  line 7: skipped, draft 1 has ended
  line 8: skipped, draft 1 has ended
  line 9: skipped, draft 1 has ended
  $ printf 'open 1\nput 1 a 0 10000 10000 4000\nabandon 1\nput 1 a 0 10000 10000 4000\ncommit 1\n' | desk rush - 2 2> told
  version 0
  $ cat told
  line 4: skipped, draft 1 has ended
  line 5: skipped, draft 1 has ended

An edit that is refused leaves its draft, and standard error tells of it:

  $ printf 'open 1\nput 1 a 0 10000 10000 4000\nremove 1 x\ncommit 1\n' | desk rush - 2 2> told
  1 team 1 admitted 1
  version 1
  level 1 a 1 4000
  $ cat told
  line 3: remove x: NoSuchTask
  $ (echo 'open 1'; for i in $(seq 1 65); do echo "put 1 t$i 0 10000 10000 1"; done; echo 'abandon 1') | desk rush - 2 2> told
  version 0
  $ cat told
  line 66: put t65: DraftFull

What is told comes by team, and then by line:

  $ printf 'open 2\nopen 1\nremove 1 x\nremove 2 y\nremove 1 z\nput 1 a 0 10000 10000 1\n' | desk rush - 2 2> told
  version 0
  $ cat told
  line 4: remove y: NoSuchTask
  line 3: remove x: NoSuchTask
  line 5: remove z: NoSuchTask

Two teams put `a`, twice. The one whose first commit comes second finds the other's `a` at its second put, whose line is told
last; its draft is empty then.

  $ twice() { printf "open $1\nput $2 a 0 10000 10000 4000\ncommit $2\nopen $1\nput $3 a 0 10000 10000 4000\ncommit $3\n"; }
  $ (twice 1 1 2; twice 2 3 4) > both-put
  $ for workers in 1 2 8; do desk rush both-put $workers > printed 2> told || echo $?; tail -n 1 told > last; tail -n 1 printed >> last; case $(cat last) in 'line 11: put a: NotYours
  > level 1 a 1 4000' | 'line 5: put a: NotYours
  > level 1 a 2 4000') ;; *) cat told printed ;; esac; done

A commit that is refused stands in the log, and the book stays:

  $ (echo 'open 3'; for i in $(seq 1 33); do echo "put 1 t$i 0 10000 10000 1"; done; echo 'commit 1') | desk rush - 2
  1 team 3 refused TooManyTasks
  version 0
  $ printf 'open 3\nput 1 a 0 10000 2000 3000\ncommit 1\nopen 3\nput 2 a 0 10000 10000 3000\ncommit 2\n' | desk rush - 8
  1 team 3 infeasible a
  2 team 3 admitted 1
  version 1
  level 1 a 3 3000

Eight teams: each has its entry, and the last version is theirs all.

  $ for team in 1 2 3 4 5 6 7 8; do echo "open $team"; echo "put $team t$team 0 10000 10000 1000"; echo "commit $team"; done > eight
  $ desk rush eight 1 | head -n 8 | sed 's/^[1-8] team [1-8]/N team N/; s/[1-8]$/V/' | uniq
  N team N admitted V
  $ desk rush eight 1 | head -n 8 | cut -d ' ' -f 3 | sort
  1
  2
  3
  4
  5
  6
  7
  8
  $ desk rush eight 1 | tail -n 9 | cut -d ' ' -f 1-4
  version 8
  level 1 t1 1
  level 2 t2 2
  level 3 t3 3
  level 4 t4 4
  level 5 t5 5
  level 6 t6 6
  level 7 t7 7
  level 8 t8 8

Team 1 commits a set with long chains a hundred and fifty times (ten times of an unproved program), and none of them is
admitted; team 2's one commit is, wherever it comes:

  $ deadlines='3298325 3592989 3594007 3595025 3596043 3597061 3598079 3598089 6385949 6387975 6394033 6885357 6887383 6889409 6891435 6893461 6895487 6897513 6899539 7396911 7396921'
  $ fast() { printf "put $1 f 0 1009 333 334\nput $1 g 1 1013 1013 336\nput $1 h 2 1019 1019 338\nput $1 i 3 100003 100003 556\n"; }
  $ long() { echo "open 1"; fast $1; for d in $deadlines; do echo "put $1 s$d 9 10000000 $d 10"; done; echo "commit $1"; }
  $ times=${UNPROVED:+10} && times=${times:-150}
  $ (for k in $(seq 1 $times); do long $k; done; printf "open 2\nput $((times + 1)) b 0 10000000 10000000 1\ncommit $((times + 1))\n") > both
  $ for workers in 1 2 4; do desk rush both $workers > printed; [ $(grep -c infeasible printed) = $times ] || cat printed; grep -c 'team 2 admitted 1$' printed; tail -n 2 printed; done
  1
  version 1
  level 1 b 2 1
  1
  version 1
  level 1 b 2 1
  1
  version 1
  level 1 b 2 1

An empty script, by two spellings:

  $ desk rush /dev/null 1
  version 0
  $ printf '# nothing\n' | desk rush - 8
  version 0

A faulty script is refused as by `play`, and nothing is run:

  $ printf 'open 1\nput 1 a 0 10000 10000 0\ncommit 1\n' | desk rush - 2
  refused: line 2 CostZero
  [4]
  $ printf 'open 9\n' | desk rush - 2
  refused: BadLine 1
  [4]
  $ printf 'open 1\ncommit 1\ncommit 2\n' | desk rush - 2
  refused: BadLine 3
  [4]
  $ desk rush missing.script 2
  refused: ReadFailed
  [7]

WORKERS is a number from 1 to 8, as `clap` reads it:

  $ said() { test ! -s output || echo output; test ! -s errors || echo errors; }
  $ desk_says() { desk "$@" > output 2> errors; status=$?; said; return $status; }
  $ for workers in 1 2 3 4 5 6 7 8 +8 08; do desk rush /dev/null $workers; done | uniq
  version 0
  $ desk_says rush /dev/null 0
  errors
  [2]
  $ desk_says rush /dev/null 9
  errors
  [2]
  $ desk_says rush /dev/null x
  errors
  [2]
  $ desk_says rush /dev/null -1
  errors
  [2]
  $ desk_says rush /dev/null -- -1
  errors
  [2]
  $ desk_says rush /dev/null ''
  errors
  [2]
  $ desk_says rush /dev/null 18446744073709551617
  errors
  [2]
  $ desk_says rush /dev/null
  errors
  [2]
  $ desk_says rush
  errors
  [2]
  $ desk_says rush /dev/null 2 2
  errors
  [2]

Bad words come before a faulty script:

  $ printf 'open 9\n' | desk rush - 9 2> errors
  [2]

Where the answer can't be written:

  $ desk rush examples/two-teams-fit.script 2 > /dev/full
  [7]
  $ desk rush examples/two-teams-fit.script 2 >&-
  [7]
  $ printf 'open 9\n' | desk rush - 2 > /dev/full
  (on standard error) standard input: line 1, "open 9" has to be open TEAM, with TEAM from 1 to 8
  [7]

Where what is told can't be written, the log stands; and where the log can't be written, no line is told of:

  $ desk rush ended 2 2> /dev/full
  1 team 1 admitted 1
  version 1
  [7]
  $ desk rush ended 2 2>&-
  1 team 1 admitted 1
  version 1
  [7]
  $ desk rush eight 2 2> /dev/full | tail -n 1
  level 8 t8 8 1000
  $ desk rush ended 2 > /dev/full 2> told
  [7]
  $ cat told
  standard output: can't be written: No space left on device
