Several teams have a document each. A folder of the documents `TEAM.toml` is a set, wherever one is read:

  $ mkdir node
  $ task() { printf '[[task]]\nname = "%s"\nperiod = %s\ndeadline = %s\ncost = %s\n' $1 $2 $2 $3; }
  $ task arm 10000 2000 > node/arm.toml
  $ task pan 20000 5000 > node/cam.toml
  $ desk admit node
  admitted 2
  1 arm 7000
  2 pan 5000
  $ echo notes > node/README
  $ desk diff node node
  admitted 2
  was admitted 2

The same in one text: each document behind a line that names the team and counts the document's bytes.

  $ gathered() { for file in "$@"; do team=${file##*/}; printf '#%% %s %s\n' "${team%.toml}" $(wc -c < "$file"); cat "$file"; done; }
  $ gathered node/arm.toml node/cam.toml | desk admit -
  admitted 2
  1 arm 7000
  2 pan 5000

No document says anything of another's tasks: a key in front of the first task is the document's own.

  $ { echo 'jitter = 5'; cat node/cam.toml; } > leak.toml
  $ gathered node/arm.toml leak.toml | desk admit -
  refused: team leak UnknownKey 0 0
  [4]

What a team's document is refused for names the team, and the document's own tasks:

  $ printf '#%% cam 4\n#ok\n#%% arm 9\ntask=[{}]' | desk admit -
  refused: team arm MissingKey 1 0 name
  [4]
  $ task pan 20000 0 > node/cam.toml
  $ desk admit node
  refused: team cam CostZero 1
  [4]
  $ desk admit node 2>&1 > /dev/null
  node: cam.toml: line 1, task 1 (pan): the cost is 0
  [4]

A name that another team has:

  $ task arm 20000 1000 > node/cam.toml
  $ desk admit node
  refused: TakenName cam arm arm
  [4]
  $ desk diff examples/empty-set.toml node
  refused: new TakenName cam arm arm
  [4]

More than 32 tasks together, though no team has so many:

  $ mkdir many
  $ for n in $(seq 1 17); do task a$n 1000000 1; done > many/a.toml
  $ for n in $(seq 1 16); do task b$n 1000000 1; done > many/b.toml
  $ desk admit many
  refused: TooManyTasks
  [4]

A line that counts more bytes than follow, a line that is none, and a line within a document, which is a comment:

  $ printf '#%% cam 5\nab' | desk admit -
  refused: BadHead 1
  [4]
  $ { gathered node/arm.toml; echo rest; } | desk admit -
  refused: BadHead 2
  [4]
  $ { cat node/arm.toml; echo '#% cam 3'; } > forged.toml
  $ gathered forged.toml | desk admit -
  admitted 1
  1 arm 2000

A file of a folder whose name is no team's is refused, not left out:

  $ touch 'many/0.toml'
  $ desk admit many
  refused: ReadFailed
  [7]

One whose name begins with a dot, as an editor's, is left alone:

  $ rm many/0.toml && : > many/.a.toml
  $ desk admit many 2> said | head -n 1
  refused: TooManyTasks

A folder without a document of a team is no set:

  $ mkdir none && : > none/node.toml
  $ desk admit none
  refused: ReadFailed
  [7]

A document that prefers otherwise than one before it, whether they have tasks or none:

  $ printf '#%% arm 0\n#%% base 20\nprefer = "deadline"\n#%% cam 17\nprefer = "weight"' | desk admit -
  refused: OtherPreference cam base
  [4]
  $ printf '#%% arm 0\n#%% base 19\nprefer = "deadline"' | desk admit -
  admitted 0

A folder's `node.toml` says what teams may take. It is no team's document, and within its budgets the set is as before:

  $ mkdir kept
  $ locked() { task "$1" "$2" "$3"; printf 'section = [{ locks = ["%s"], at = 0, len = %s }]\n' "$4" "$5"; }
  $ locked arm 10000 2000 bus 300 > kept/arm.toml
  $ locked pan 20000 5000 bus 400 > kept/cam.toml
  $ locked tilt 30000 1000 own 900 >> kept/cam.toml
  $ desk admit kept > before 2> notes
  $ printf '[team.cam]\nload = 284\nsection = 400\n' > kept/node.toml
  $ desk admit kept 2> notes | diff before - && cat before
  admitted 3
  1 arm 8000
  2 pan 6300
  3 tilt 1000

What is past its budget has its name, with the team, what it takes, and what it may. A quarter and a thirtieth are above 283
thousandths, and 284 is printed; a lock that only one team uses counts for nothing:

  $ printf '[team.cam]\nload = 283\n' > kept/node.toml
  $ desk admit kept
  refused: PastBudget cam load 284 283
  [4]
  $ desk explain kept 2>&1 > /dev/null
  kept: node.toml: line 1: cam takes 284 thousandths of the processor, and may take 283
  [4]
  $ printf '[team.arm]\nsection = 300\n\n[team.cam]\nsection = 399\n' > kept/node.toml
  $ desk limits kept
  refused: PastBudget cam section 400 399
  [4]
  $ desk limits kept 2>&1 > /dev/null
  kept: node.toml: line 4: cam holds a lock that another team uses, too, for 400 microseconds, and may hold it for 399
  [4]

Teams come by their names, and of a team the load before the section:

  $ printf '[team.cam]\nsection = 0\nload = 0\n[team.arm]\nload = 199\n' > kept/node.toml
  $ desk admit kept
  refused: PastBudget arm load 200 199
  [4]
  $ desk diff examples/empty-set.toml kept
  refused: new PastBudget arm load 200 199
  [4]

In a text the node's document stands in front, and nothing is rounded before a third is compared; three thirds are all of the
processor, and a nine-millionth more, of an interrupt or a task, is more than that:

  $ third() { printf '#%% 22\n[team.cam]\nload = %s\n#%% cam 55\n' $1; echo 'task=[{name="pan",period=3000,deadline=3000,cost=1000}]'; }
  $ third 333 | head -c -1 | desk admit -
  refused: PastBudget cam load 334 333
  [4]
  $ third 334 | head -c -1 | desk admit -
  admitted 1
  1 pan 1000

  $ mkdir exact
  $ budget() { printf '[team.cam]\nnode = true\nload = %s\n' $1 > exact/node.toml; }
  $ thirds() { for name in p q r; do task $name 3000 1000; done; }
  $ tick() { printf '[[interrupt]]\nperiod = %s\ncost = %s\n' $1 $2; }
  $ budget 1000
  $ thirds > exact/cam.toml
  $ desk admit exact 2> notes | head -n 1
  admitted 3
  $ { thirds; tick 9000000 1; } > exact/cam.toml
  $ desk admit exact
  refused: PastBudget cam load 1001 1000
  [4]
  $ { thirds; task s 9000000 1; } > exact/cam.toml
  $ desk admit exact
  refused: PastBudget cam load 1001 1000
  [4]

An interrupt counts for the team that writes it, whose tasks may be none, and one of `node.toml` for no team:

  $ tick 100 25 > exact/base.toml
  $ tick 100 25 > exact/cam.toml
  $ budget() { { tick 100 25; printf '[team.base]\nnode = true\n[team.cam]\nnode = true\nload = %s\n' $1; } > exact/node.toml; }
  $ budget 249
  $ desk admit exact
  refused: PastBudget cam load 250 249
  [4]
  $ budget 250
  $ desk admit exact
  admitted 0

What `node.toml` says holds for all, its interrupts before the teams', and there alone it is said:

  $ { printf 'prefer = "deadline"\n[node]\njob = 28\nrelease = 5\n'; tick 4000 17; } > exact/node.toml
  $ { tick 5000 20; task p 3000 1000; } > exact/cam.toml
  $ : > exact/base.toml
  $ desk admit exact
  refused: NodesOwn cam interrupt
  (on standard error) exact: cam.toml: [[interrupt]] is for node.toml to say, for all teams: move it there, or let node.toml give the right, by node = true in [team.cam]
  [4]
  $ printf 'prefer = "deadline"\n' > exact/base.toml
  $ desk admit exact
  refused: NodesOwn base prefer
  (on standard error) exact: base.toml: prefer is for node.toml to say, for all teams: move it there, or let node.toml give the right, by node = true in [team.base]
  [4]
  $ printf '[team.cam]\nnode = true\n[team.base]\nnode = false\n' >> exact/node.toml
  $ desk admit exact 2> said
  refused: NodesOwn base prefer
  [4]
  $ : > exact/base.toml
  $ desk script exact 1
  open 1
  put 1 p 0 3000 3000 1023 node=28+0+5+0 irq=4000:17+5000:20
  commit 1

`[locks]` has the names that sections may take; a second name is its lock's, so that teams rename one after the other:

  $ mkdir locks
  $ held() { task "$1" "$2" "$3"; shift 3; printf 'section = [{ locks = [%s], len = 100 }]\n' "$1"; }
  $ held arm 10000 2000 '"can"' > locks/arm.toml
  $ held pan 20000 5000 '"bus"' > locks/cam.toml
  $ desk admit locks 2> said
  admitted 2
  1 arm 7000
  2 pan 5000
  $ printf '[locks]\nbus = true\ncan = "bus"\nm = true\n' > locks/node.toml
  $ desk admit locks
  admitted 2
  1 arm 7000
  2 pan 5100
  $ desk explain locks | sed -n '/blocked/p'
    blocked 100 by arm section 1 lock bus team arm
  $ printf '[team.cam]\nsection = 99\n' >> locks/node.toml
  $ desk admit locks 2> said
  refused: PastBudget cam section 100 99
  [4]
  $ printf '[locks]\nbus = true\ncan = "bus"\nm = true\n' > locks/node.toml
  $ { task tilt 30000 1000; held pan 20000 5000 '"m"], len = 5 }, { locks = ["buss"'; } > locks/cam.toml
  $ desk admit locks
  refused: UnknownLock cam pan 2 buss
  (on standard error) locks: cam.toml: line 6, task 2 (pan), section 2: buss is no lock in [locks] of node.toml; the nearest is bus: write one that is, or have it added there, buss = true
  [4]
  $ held pan 20000 5000 '"can", "m", "bus"' > locks/cam.toml
  $ desk admit locks
  refused: team cam task pan LockTwice 1
  (on standard error) locks: cam.toml: line 1, task 1 (pan): by [locks] of node.toml, section 1: a lock twice
  [4]
  $ : > locks/node.toml
  $ desk admit locks 2> said
  admitted 2
  1 arm 7000
  2 pan 5100

Who has the right may not say otherwise, nor more than the node has room for:

  $ printf 'prefer = "weight"\n' > exact/cam.toml
  $ desk admit exact
  refused: OtherPreference cam node
  (on standard error) exact: cam.toml: prefers otherwise than node.toml; one team says it for all
  [4]
  $ printf '[node]\njob = 27\n' > exact/cam.toml
  $ desk admit exact 2> said
  refused: OtherNode cam node
  [4]
  $ for n in 1 2 3 4 5 6 7 8; do tick 100000 $n; done > exact/cam.toml
  $ desk admit exact
  refused: TooManyInterrupts
  (on standard error) exact: the documents have more than 8 interrupts together
  [4]
  $ task p 3000 2990 > exact/cam.toml
  $ desk admit exact
  refused: PaddedCost p
  (on standard error) exact: cam.toml: line 1, task 1 (p): with job and lock of [node] the cost is past the period: cost 2990, job 28 and 0 times lock 0 make 3018, period 3000
  [4]

A budget needs a team that has a document:

  $ printf '\n[team.base]\nload = 0\n' > kept/node.toml
  $ desk admit kept
  refused: NoSuchTeam base
  [4]
  $ desk admit kept 2>&1 > /dev/null
  kept: node.toml: line 2: there is no base.toml
  [4]
  $ echo '[team.node]' > kept/node.toml; desk admit kept 2>&1 > /dev/null
  kept: node.toml: line 1: node is no team: what it takes has no budget
  [4]

What is no such document, in the order of its refusals:

  $ told() { printf "$1" > kept/node.toml; desk admit kept 2>&1; }
  $ told 'team = '
  kept: node.toml: line 1, column 8: invalid value, expected a string, number, boolean, date-time, array or inline table, in "team = "
  refused: node Syntax
  [4]
  $ told '[[task]]\nname = "a"\n[team]\ncam = 1\n'
  kept: node.toml: unknown key task; it may have prefer and strict in front, [node], [[interrupt]], [[chain]], [locks], and for each team [team.NAME]; a task stands in its team's document
  refused: node UnknownKey
  [4]
  $ told '[[team]]\nload = 1\n'
  kept: node.toml: team has to be a table of teams, each headed by [team.NAME]; it is an array
  refused: node WrongKind
  [4]
  $ told 'prefer = "weights"\nteam = 1\n'
  kept: node.toml: prefer has to be "chains", "deadline" or "weight"; it is the string "weights"
  refused: node BadPreference
  [4]
  $ told '[node]\nrelease = 3\n'
  kept: node.toml: release has to be at most 1000 and at most job; it is 3, job 0
  refused: node BadOverhead release
  [4]
  $ told 'node = 3\n'
  kept: node.toml: node has to be a table, headed by [node]; it is 3
  refused: node WrongKind 0 0 node
  [4]
  $ told 'strict = "yes"\nlocks = 1\n'
  kept: node.toml: strict has to be true, where a set is refused for what may be a mistake, or false; it is the string "yes"
  refused: node WrongKind 0 0 strict
  [4]
  $ told 'strict = 1\nprefer = 1\n'
  kept: node.toml: prefer has to be "chains", "deadline" or "weight"; it is 1
  refused: node WrongKind 0 0 prefer
  [4]
  $ told 'locks = ["a"]\n'
  kept: node.toml: locks has to be a table, headed by [locks]; it is an array
  refused: node WrongKind 0 0 locks
  [4]
  $ told '[locks]\n"a b" = true\n'
  kept: node.toml: a b is no name of a lock
  refused: node BadLock
  [4]
  $ told '[locks]\n"" = true\n'
  kept: node.toml: "" is no name of a lock
  refused: node BadLock
  [4]
  $ told '[locks]\na = "b"\nb = "c"\nc = true\n'
  kept: node.toml: a in [locks] has to be true, or in quotes the name of a lock that is true there: a is a second name of that then; it is the string "b"
  refused: node BadLock a
  [4]
  $ told '[[interrupt]]\nperiod = 100\ncost = 101\n'
  kept: node.toml: interrupt 1: period has to be from 100 to 10000000, and cost at most period; period is 100, cost is 101
  refused: node BadInterrupt 1
  [4]
  $ told '[team."c m"]\nload = 1\n'
  kept: node.toml: c m is no name of a team
  refused: node BadName
  [4]
  $ told '[team]\ncam = 250\n'
  kept: node.toml: team.cam has to be a table, headed by [team.cam]; it is 250
  refused: node WrongKind cam
  [4]
  $ told '[team.cam]\nlaod = 250\n'
  kept: node.toml: line 1: cam: unknown key laod; it may have load, section, node
  refused: node UnknownKey cam
  [4]
  $ told '[team.cam]\nload = 25.0\n'
  kept: node.toml: line 1: cam: load has to be a whole number of thousandths of the processor from 0; it is a number with a fraction
  refused: node WrongKind cam load
  [4]
  $ told '[team.cam]\nnode = 1\n'
  kept: node.toml: line 1: cam: node has to be true, where the team may say prefer, [node] and [[interrupt]], or false; it is 1
  refused: node WrongKind cam node
  [4]

Its refusals come before those of the teams' documents, and what is past comes after them. In one text it stands first,
behind a line that counts its bytes alone, and the parts are the teams':

  $ printf '#%% 22\n[team.cam]\nload = 283\n#%% cam 1\n' | desk admit -
  refused: BadHead 1
  [4]
  $ { gathered kept/arm.toml; printf '#%% 0\n'; } | desk admit -
  refused: BadHead 2
  [4]
  $ printf '#%% 0\n' | desk admit -
  admitted 0
  $ printf '#%% 1\n' | desk admit -
  refused: BadHead 1
  [4]

Where a set is documents of teams, `explain` and `diff` name the team of a task behind all other words of its line, on each
line that speaks of one task, but where keys stand:

  $ rm kept/node.toml
  $ desk explain kept 2> notes
  admitted 3
  1 arm 8000 of 10000 team arm
    cost 2000
    above tilt 1 jobs 1000 team cam
    above pan 1 jobs 5000 team cam
  2 pan 6300 of 20000 team cam
    cost 5000
    blocked 300 by arm section 1 lock bus team arm
    above tilt 1 jobs 1000 team cam
  3 tilt 1000 of 30000 team cam
    cost 1000
  load 483334
  $ desk explain --task pan kept 2> notes
  admitted 3
  2 pan 6300 of 20000 team cam
    cost 5000
    blocked 300 by arm section 1 lock bus team arm
    above tilt 1 jobs 1000 team cam
  $ mkdir moved
  $ locked pan 20000 5000 bus 400 > moved/cam.toml
  $ task spin 30000 500 > moved/base.toml
  $ locked arm 10000 2000 bus 300 > moved/arm.toml
  $ desk diff kept moved 2> notes
  admitted 3
  was admitted 3
  removed tilt level 3 - bound 1000 - slack 29000 - team cam
  added spin level - 3 bound - 500 slack - 29500 team base
  faster arm level 1 1 bound 8000 7500 slack 2000 2500 team arm
  faster pan level 2 2 bound 6300 5800 slack 13700 14200 team cam

An interrupt is that of its document, wherever it stands among all: here one comes in front of those of cam, of which one is
another and one is gone.

  $ interrupt() { printf '[[interrupt]]\nperiod = %d\ncost = %d\n' $1 $2; }
  $ mkdir was now && for it in was now; do task pan 20000 1000 > $it/cam.toml; task arm 10000 1000 > $it/arm.toml; done
  $ { interrupt 4000 10; interrupt 5000 20; } >> was/cam.toml
  $ interrupt 1000 3 >> now/arm.toml; interrupt 4000 11 >> now/cam.toml
  $ { interrupt 2000 5; printf '[team.arm]\nnode = true\n[team.cam]\nnode = true\n'; } > now/node.toml
  $ desk diff was now 2> notes | grep interrupt
  node interrupt 1 period - 2000 cost - 5
  arm interrupt 1 period - 1000 cost - 3
  cam interrupt 1 cost 10 11
  cam interrupt 2 period 5000 - cost 20 -
  $ desk diff was was 2> notes | sed 1,2d
  $ sed '/^\[\[interrupt/,/^cost/d' was/cam.toml > now/cam.toml && { cat now/cam.toml; interrupt 5000 20; interrupt 4000 10; } > now/turned
  $ mv now/turned now/cam.toml; desk diff was now 2> notes | grep cam.inter
  cam interrupt 1 period 4000 5000 cost 10 20
  cam interrupt 2 period 5000 4000 cost 20 10

A team's places go on through its documents, where it has several in a text, so that no interrupt has the name of another:

  $ mkdir more less && task tilt 30000 100 | tee less/cam.toml > more/cam.toml && interrupt 8000 30 >> more/cam.toml
  $ gathered was/cam.toml more/cam.toml > twice && gathered was/cam.toml less/cam.toml > once
  $ desk diff twice once | grep interrupt
  cam interrupt 3 period 8000 - cost 30 -
  $ desk limits twice | grep interrupt | cut -d ' ' -f 1-5
  cam interrupt 1 cost 10
  cam interrupt 1 period 4000
  cam interrupt 2 cost 20
  cam interrupt 2 period 5000
  cam interrupt 3 cost 30
  cam interrupt 3 period 8000

Of a minimal conflict the same, so that its teams know of each other; a task of one document has no team:

  $ locked arm 10000 9000 bus 300 > moved/arm.toml
  $ desk explain moved 2> notes | sed 1d
  conflict arm pan
  arm 14000 of 10000 team arm
    cost 9000
    above pan 1 jobs 5000 team cam
  pan 23000 of 20000 team cam
    cost 5000
    above arm 2 jobs 18000 team arm
  load 1166667
  1 spin misses 30000 needs 37500 team base
    cost 500
    above arm 3 jobs 27000 team arm
    above pan 2 jobs 10000 team cam
  2 pan misses 20000 needs 23000 team cam
    cost 5000
    above arm 2 jobs 18000 team arm
  3 arm 9400 of 10000 team arm
  $ cat moved/arm.toml moved/cam.toml > alone.toml
  $ desk diff kept alone.toml 2> notes | sed 1,2d
  removed tilt level 3 - bound 1000 - slack 29000 - team cam
  changed arm level 1 - bound 8000 - slack 2000 - keys cost 2000 9000
  $ desk explain --task pan alone.toml 2> notes
  infeasible arm pan
  conflict arm pan
  pan 23000 of 20000
    cost 5000
    above arm 2 jobs 18000
  1 pan misses 20000 needs 23000
    cost 5000
    above arm 2 jobs 18000
  [3]
