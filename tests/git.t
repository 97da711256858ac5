A node's branch under the hook `examples/git/pre-receive`, with a team each for three colleagues, ann, bob and cy; nora may
change what the node gives to each, root everything. `desk-teams` may lack its last line end, and have those of Windows:

  $ git init -q --bare -b main node.git && cp examples/git/pre-receive node.git/hooks
  $ git -C node.git config receive.fsckObjects true && git -C node.git config desk.userVariable PUSHER
  $ printf 'ann arm\r\nbob base\r\ncy cam\r\nnora node\r\nroot *' > node.git/desk-teams
  $ for it in ann bob cy nora root; do git clone -q node.git $it 2> said; done
  $ task() { printf '[[task]]\nname = "%s"\nperiod = %s\ndeadline = %s\ncost = %s\n' $1 $2 $2 $3; }
  $ locked() { task $1 $2 $3; printf 'section = [{ locks = ["%s"], len = %s }]\n' $4 $5; }
  $ fresh() { git -C $1 fetch -q && git -C $1 reset -q --hard origin/main && mkdir -p $1/teams; }
  $ save() { git -C $1 add -A && git -C $1 commit -q -m "$2"; }
  $ push() { PUSHER=$1 git -C $1 push -q ${2-} origin ${3-HEAD}:main 2>&1 | sed -n 's/ *$//; s/[0-9a-f]\{40\}/COMMIT/g; s/[0-9a-f]\{10\}/COMMIT/g; s/^remote: //p'; }
  $ mkdir ann/teams && locked arm 5000 1500 bus 300 > ann/teams/arm.toml && save ann 'the arm' && push ann
  admitted 1
  was admitted 0
  added arm level - 1 bound - 1500 slack - 3500 team arm
  note: lock bus has one user, arm
  all - -> 3333
  taken, unless git says below that it failed: then another push was quicker: git pull --rebase origin main && git push origin HEAD:main

Bob's section on the bus is too long for the arm. He is told the change, each number that mends it alone, his own first, and
the conflict. He takes the one that is his, and reads what this leaves to all:

  $ fresh bob && locked roll 20000 6000 bus 4000 > bob/teams/base.toml && save bob 'the base' && push bob
  infeasible arm
  was admitted 1
  added roll level - - bound - - slack - - team base
  one of these changes mends it, all else as it is:
  team base (yours), teams/base.toml: roll section 1 len = 3500, now 4000
  team arm (ann or root), teams/arm.toml: arm cost = 1000, now 1500
  team arm (ann or root), teams/arm.toml: arm deadline = 5500 with period = 5500, now 5000
  of arm and base: lock bus len = 3500, now 4000
  or all teams together: each cost and section at most 909 thousandths of what it is
  conflict arm
  arm 5500 of 5000 team arm
    cost 1500
    blocked 4000 by roll section 1 lock bus team base
  in an order that passes wherever one does, from the lowest level:
  1 roll 9000 of 20000 team base
  2 arm misses 5000 needs 5500 team arm: by 500 at least
  refused: COMMIT "the base" is not admitted
  $ sed -i s/4000/3500/ bob/teams/base.toml && git -C bob commit -q -a --amend -m 'the base' && push bob
  admitted 2
  was admitted 1
  added roll level - 1 bound - 9000 slack - 11000 team base
  slower arm level 1 2 bound 1500 5000 slack 3500 0 team arm
  all 3333 -> 1000
  warning: nothing is left: if all takes a thousandth longer, arm of team arm (ann or root) misses its deadline
  lock bus is shared from this push on, by teams arm and base: base came second
  taken, unless git says below that it failed: then another push was quicker: git pull --rebase origin main && git push origin HEAD:main

Two in one push, of which the first takes a name that bob had. The push as one commit, as the sentence says:

  $ fresh cy && task roll 30000 100 > cy/teams/cam.toml && save cy 'the camera' && task pan 30000 100 > cy/teams/cam.toml
  $ save cy 'another name' && push cy
  cam.toml: roll is the name of a task of base
  refused: TakenName cam roll base
  team base had the name roll first; team cam (yours) has to take another one
  refused: COMMIT "the camera", commit 1 of 2 of this push, each of which has to be admitted; git rebase -i COMMIT changes it; as one commit all are admitted: git reset --soft COMMIT && git commit
  $ git -C cy reset -q --soft origin/main && git -C cy commit -q -m 'the camera' && push cy | head -n 3
  admitted 3
  was admitted 2
  added pan level - 1 bound - 9100 slack - 20900 team cam

A file of another team, and nobody's user:

  $ fresh bob && sed -i 's/1500/1000/' bob/teams/arm.toml && save bob 'a lighter arm' && push bob
  refused: COMMIT "a lighter arm": bob may not change teams/arm.toml; ann or root may
  $ PUSHER=eve git -C bob push -q origin HEAD:main 2>&1 | sed -n 's/ *$//; s/^remote: //p'
  refused: eve is in no team; whoever runs the server can add a line `eve TEAM` to desk-teams

What the node gives to a team, and whose a lock becomes:

  $ fresh nora && printf '[team.base]\nload = 300\n[team.cam]\nsection = 50\n' > nora/teams/node.toml && save nora budgets && push nora | grep '^all'
  all 1000 -> 1000
  $ fresh bob && sed -i 's/cost = 6000/cost = 6001/' bob/teams/base.toml && save bob 'more' && push bob
  node.toml: line 1: base takes 301 thousandths of the processor, and may take 300
  refused: PastBudget base load 301 300
  team base (yours) has to take less, or teams/node.toml to give more, which nora or root may change
  refused: COMMIT "more"
  $ fresh cy && locked pan 30000 100 eye 100 > cy/teams/cam.toml && save cy 'a lock of its own' && push cy | grep '^all'
  all 1000 -> 1000
  $ fresh ann && locked look 50000 100 eye 10 >> ann/teams/arm.toml && save ann 'the eye' && push ann
  node.toml: line 3: cam holds a lock that another team uses, too, for 100 microseconds, and may hold it for 50
  refused: PastBudget cam section 100 50
  lock eye is shared from this push on, by teams arm and cam: arm came second
  team cam (cy or root) has to take less, or teams/node.toml to give more, which nora or root may change
  refused: COMMIT "the eye"
  $ fresh bob && git -C bob mv teams/base.toml teams/wheels.toml && save bob 'another name' && push bob
  refused: COMMIT "another name": bob may not change teams/wheels.toml; root may
  $ fresh root && git -C root mv teams/base.toml teams/wheels.toml && save root 'another name' && push root
  node.toml: line 1: there is no base.toml
  refused: NoSuchTeam base
  teams/base.toml is teams/wheels.toml now; in the same commit [team.base] in teams/node.toml
  has to become [team.wheels], or to go in a commit before: nora or root may change it
  refused: COMMIT "another name"
  $ fresh bob && git -C bob rm -q teams/base.toml && save bob 'no base' && push bob
  node.toml: line 1: there is no base.toml
  refused: NoSuchTeam base
  teams/base.toml is gone; [team.base] in teams/node.toml has to go, too, first or in the same commit: nora or root may change it
  refused: COMMIT "no base"
  $ fresh nora && printf '[team.bsae]\nload = 300\n' > nora/teams/node.toml && save nora mistyped && push nora
  node.toml: line 1: there is no bsae.toml
  refused: NoSuchTeam bsae
  [team.bsae] in teams/node.toml is of no document; the teams are arm, base and cam: nora or root may change it
  refused: COMMIT "mistyped"

  $ fresh root && rm root/teams/arm.toml root/teams/base.toml root/teams/cam.toml && save root 'no team' && push root | sed 1,2d
  teams/base.toml is gone; [team.base] in teams/node.toml has to go, too, first or in the same commit: nora or root may change it
  refused: COMMIT "no team"
  $ sed -i s/base/bsae/ root/teams/node.toml && git -C root commit -q -a --amend -m 'mistyped' && push root | sed 1,2d
  [team.bsae] in teams/node.toml is of no document; no team has one: nora or root may change it
  refused: COMMIT "mistyped"

What only the node's document may say:

  $ fresh ann && printf '[node]\njob = 10\n' >> ann/teams/arm.toml && save ann 'what a job takes' && push ann
  arm.toml: [node] is for node.toml to say, for all teams: move it there, or let node.toml give the right, by node = true in [team.arm]
  refused: NodesOwn arm node
  team arm (yours) has to take it out of teams/arm.toml, or teams/node.toml to give the right: nora or root may change it
  refused: COMMIT "what a job takes"

  $ fresh nora && printf '[locks]\nbus = true\neye = true\n' >> nora/teams/node.toml && save nora locks && push nora | grep '^all'
  all 1000 -> 1000
  $ fresh cy && sed -i s/eye/eyes/ cy/teams/cam.toml && save cy eyes && push cy
  cam.toml: line 1, task 1 (pan), section 1: eyes is no lock in [locks] of node.toml; the nearest is eye: write one that is, or have it added there, eyes = true
  refused: UnknownLock cam pan 1 eyes
  team cam (yours) has to take another lock, or teams/node.toml to list eyes: nora or root may change it
  refused: COMMIT "eyes"
  $ fresh nora && git -C nora revert --no-edit HEAD > said && push nora | grep '^all'
  all 1000 -> 1000

A node that takes no set with what may be a mistake:

  $ strict() { fresh nora && sed -i "1i $1" nora/teams/node.toml && save nora strict && push nora; }
  $ strict 'strict = true'
  cam.toml: line 1, task 1 (pan): lock eye has one user, pan
  refused: LoneLock pan eye
  the node takes no such set, since teams/node.toml says strict = true: team cam (cy or root) has to take eye out of pan, or another task has to take eye, too, in the same commit; nora or root may change teams/node.toml
  refused: COMMIT "strict"
  $ fresh cy && task pan 30000 100 > cy/teams/cam.toml && save cy 'no lock' && push cy | grep '^all'
  all 1000 -> 1000
  $ strict 'strict = true'
  names decide the order; prefer = "deadline" in front of the tasks has shorter ones higher
  refused: NamesDecide arm pan
  the node takes no such set, since teams/node.toml says strict = true: teams/node.toml has to say prefer = "deadline" or "weight", or a task to have a weight, as arm of team arm (ann or root) or pan of team cam (cy or root); nora or root may change teams/node.toml
  refused: COMMIT "strict"
  $ strict 'strict = true\nprefer = "deadline"' | grep '^all'
  all 1000 -> 1000
  $ fresh cy && printf 'outranks = ["rol"]\n' >> cy/teams/cam.toml && save cy 'above the base' && push cy
  cam.toml: line 1, task 1 (pan): pan outranks rol, which is no task of the set: that binds nothing
  refused: NoSuchName pan rol
  the node takes no such set, since teams/node.toml says strict = true: team cam (yours) has to take rol out of what pan outranks, or to write a task's name; nora or root may change teams/node.toml
  refused: COMMIT "above the base"
  $ fresh nora && sed -i 1,2d nora/teams/node.toml && save nora 'as before' && push nora | grep '^all'
  all 1000 -> 1000
  $ fresh cy && locked pan 30000 100 eye 100 > cy/teams/cam.toml && save cy 'a lock' && push cy | grep '^all'
  all 1000 -> 1000

What is no document:

  $ fresh cy && chmod +x cy/teams/cam.toml && save cy 'run it' && push cy
  refused: COMMIT "run it": teams/cam.toml is no team's document: it has the executable bit: chmod -x teams/cam.toml && git update-index --chmod=-x teams/cam.toml && git commit --amend --no-edit --allow-empty
  $ (cd cy && chmod -x teams/cam.toml && git update-index --chmod=-x teams/cam.toml && git commit -q --amend --no-edit --allow-empty) && push cy | head -n 1
  admitted 3
  $ fresh cy && ln -sf arm.toml cy/teams/cam.toml && save cy 'as the arm' && push cy
  refused: COMMIT "as the arm": teams/cam.toml is no team's document: it is a symbolic link; the document itself has to stand there
  $ fresh root && mkdir root/teams/cam && task zoom 30000 1 > root/teams/cam/zoom.toml && save root 'a folder' && push root
  refused: COMMIT "a folder": teams/cam is no team's document: it is a folder; each document has to stand in teams itself
  $ fresh root && task zoom 30000 1 > root/teams/2nd.toml && save root 'a second one' && push root
  refused: COMMIT "a second one": teams/2nd.toml is no team's document: its name is TEAM.toml, TEAM a letter, and up to 23 letters, digits, _ or - behind it

What moves the branch otherwise than by commits upon it:

  $ fresh cy && git -C cy commit -q --amend --allow-empty -m 'run it again' && push cy --force
  refused: the branch has other commits, as COMMIT, and keeps them: git pull --rebase origin main && git push origin HEAD:main
  $ fresh cy && push cy --force HEAD~1
  refused: this takes commits of main back, whose log only grows: git pull --rebase origin main && git restore --source=COMMIT --staged --worktree :/ && git commit -m 'As COMMIT had it' && git push origin HEAD:main
  $ git -C cy checkout -q -b side HEAD~1 && task pan 30000 90 > cy/teams/cam.toml && save cy side && git -C cy merge -q -m both -X ours origin/main > said && push cy
  refused: COMMIT "both" is a merge, and main has none: git rebase COMMIT && git push origin HEAD:main, or as one commit: git reset --soft COMMIT && git commit && git push origin HEAD:main
  $ fresh cy && for n in $(seq 101); do git -C cy commit -q --allow-empty -m $n; done && push cy
  refused: more than 100 commits in one push: git push origin COMMIT:refs/heads/main, and then the others
  $ PUSHER=cy git -C cy push -q origin :main 2>&1 | sed -n 's/ *$//; s/^remote: //p'
  refused: refs/heads/main may not be deleted

Who was slower reads it from the client, from the hook, which looks again at the end, or in its last line above:

  $ fresh cy && fresh ann && echo '# first' >> ann/teams/arm.toml && save ann first && old=$(git -C cy rev-parse HEAD)
  $ push ann | head -n 1
  admitted 3
  $ printf '#!/bin/sh\nsed s/^$(git rev-parse main)/%s/ | hooks/asked\n' $old > node.git/hooks/late && chmod +x node.git/hooks/late
  $ fresh cy && echo '# second' >> cy/teams/cam.toml && save cy second
  $ mv node.git/hooks/pre-receive node.git/hooks/asked && mv node.git/hooks/late node.git/hooks/pre-receive && push cy
  refused: the branch has other commits, as another push was quicker: git pull --rebase origin main && git push origin HEAD:main
  $ mv node.git/hooks/asked node.git/hooks/pre-receive

Of a conflict of more than three tasks the order comes first, and what misses in it by how much:

  $ fresh cy && for n in 1 2 3 4 5; do task c$n 10000 1200; done >> cy/teams/cam.toml && save cy many && push cy | grep -v ^added
  infeasible arm c1 c2 c3 c4 c5 pan roll
  was admitted 3
  note: lock eye has one user, pan
  note: the costs over the periods come to more than 1: no order can pass
  one of these changes mends it, all else as it is:
  team arm (ann or root), teams/arm.toml: arm deadline = 19600 with period = 19600, now 5000
  or all teams together: each cost and section at most 800 thousandths of what it is
  in an order that passes wherever one does, from the lowest level:
  1 pan misses 30000 needs 37600 team cam: by 7600 at least
  2 roll misses 20000 needs 22500 team base: by 2500 at least
  3 c1 misses 10000 needs 11000 team cam: by 1000 at least
  4 c2 misses 10000 needs 11300 team cam: by 1300 at least
  5 c3 misses 10000 needs 10100 team cam: by 100 at least
  6 c4 8900 of 10000 team cam
  7 c5 7700 of 10000 team cam
  8 arm 5000 of 5000 team arm
  conflict arm c3 c4 c5: each fails as the lowest of these, and none can be left out
  (what a conflict is: `man desk`, or docs/FORMATS.md, `explain`)
  refused: COMMIT "many" is not admitted

A branch that is not admitted, or can't be read, as one from before the hook, is mended by a set that is judged alone:

  $ overrule() { PUSHER=$1 git -C $1 push -q origin HEAD:refs/heads/drafts/$2/x 2> said; git -C node.git update-ref refs/heads/main refs/heads/drafts/$2/x; }
  $ fresh cy && task c1 10000 9000 >> cy/teams/cam.toml && save cy worse && overrule cy cam
  $ sed -i 's/9000/900/' cy/teams/cam.toml && save cy better && push cy | grep -v '^taken'
  admitted 4
  was infeasible arm c1 pan roll
  changed c1 level - 1 bound - 10000 slack - 0 keys cost 9000 900
  note: lock eye has one user, pan
  the set before was not admitted: the new one is judged alone
  all 645 -> 1000
  warning: nothing is left: if all takes a thousandth longer, arm of team arm (ann or root) misses its deadline
  $ fresh root && ln -sf arm.toml root/teams/cam.toml && save root link && overrule root base
  $ fresh root && rm root/teams/cam.toml && task pan 30000 100 > root/teams/cam.toml && save root 'no link' && push root | grep -v '^taken'
  admitted 3
  1 pan 9100
  2 roll 9000
  3 arm 5000
  note: names decide the order; prefer = "deadline" in front of the tasks has shorter ones higher
  the set before can't be read (teams/cam.toml is no team's document: it is a symbolic link; the document itself has to stand there): the new one is judged alone
  all - -> 1000
  warning: nothing is left: if all takes a thousandth longer, arm of team arm (ann or root) misses its deadline

A lock of two names is one; what mends a set is told of whoever says it, and what all have to lessen:

  $ node() { fresh nora && printf "$1" > nora/teams/node.toml && save nora node && push nora; }
  $ node '[locks]\nbus = true\neye = true\n"lens" = "eye"\n' | grep '^all'
  all 1000 -> 1000
  $ fresh cy && locked pan 30000 100 eye 100 > cy/teams/cam.toml && save cy 'the eye' && push cy | grep '^all'
  all 1000 -> 1000
  $ fresh ann && locked look 50000 100 lens 10 >> ann/teams/arm.toml && save ann 'the eye' && push ann | grep '^lock'
  lock eye is shared from this push on, by teams arm and cam: arm came second
  $ node 'locks = { bus = true, eye = true, lens = "eye" }\n[node]\njob = 600\n' | sed -n '/^one/,/^or/p'
  one of these changes mends it, all else as it is:
  team node (yours), teams/node.toml: node job = 0, now 600
  team arm (ann or root), teams/arm.toml: arm cost = 900, now 1500
  team arm (ann or root), teams/arm.toml: arm deadline = 5600 with period = 5600, now 5000
  team base (bob or root), teams/base.toml: roll section 1 len = 2900, now 3500
  of arm and base: lock bus len = 2900, now 3500
  or all teams together: each cost and section, and what the node takes, at most 892 thousandths of what it is
  $ node 'locks = { bus = true, eye = true, "lens" = "eye" }\n[[interrupt]]\nperiod = 2000\ncost = 500\n' | sed -n '/^one/,/^or/p'
  one of these changes mends it, all else as it is:
  team node (yours), teams/node.toml: interrupt 1 cost = 0, now 500
  team arm (ann or root), teams/arm.toml: arm deadline = 7000 with period = 7000, now 5000
  team base (bob or root), teams/base.toml: roll section 1 len = 2000, now 3500
  of arm and base: lock bus len = 2000, now 3500
  or all teams together: each cost, section and interrupt at most 769 thousandths of what it is

What the node takes past a task's own numbers, and chains, of which each says whose it is:

  $ node '[node]\njob = 4000\n'
  arm.toml: line 1, task 1 (arm): with job and lock of [node] the cost is past the period: cost 1500, job 4000 and 1 times lock 0 make 5500, period 5000
  refused: PaddedCost arm
  arm of team arm (ann or root) has to have less cost, or teams/node.toml to say less of what the node takes
  refused: COMMIT "node"
  $ fresh cy && printf '[[chain]]\nname = "see"\ntasks = ["pan", "tilt"]\n' >> cy/teams/cam.toml && save cy 'a chain' && push cy
  cam.toml: line 7, chain 1 (see): the set has no task tilt; a chain's tasks are names of tasks, of any team
  refused: ChainTask see tilt
  no team has a task tilt: the chain see of team cam (yours) has to have another one
  refused: COMMIT "a chain"
  $ fresh cy && printf '[[chain]]\nname = "see"\ntasks = ["pan", "arm"]\n' >> cy/teams/cam.toml && save cy 'a chain' && push cy | head -n 1
  admitted 4

A document whose chain has other teams' tasks is told about as any other:

  $ fresh cy && sed -i 's/^cost = .*/cost = 29000/' cy/teams/cam.toml && save cy 'too long' && push cy | grep ': pan'
  team cam (yours), teams/cam.toml: pan cost = 8900, now 29000
  team cam (yours), teams/cam.toml: pan deadline = 77200 with period = 77200, now 30000
  $ fresh bob && task pan 30000 100 >> bob/teams/base.toml && save bob 'another pan' && push bob | tail -n 2
  team cam had the name pan first; team base (yours) has to take another one
  refused: COMMIT "another pan"

And what is wrong with a chain:

  $ fresh ann && sed -i 's/"arm"/"hand"/' ann/teams/arm.toml && save ann 'another name' && push ann
  cam.toml: line 7, chain 1 (see): the set has no task arm; a chain's tasks are names of tasks, of any team
  refused: ChainTask see arm
  team arm (yours) had the task arm: the chain see of team cam (cy or root) has to do without it, first or in the same commit
  refused: COMMIT "another name"
  $ fresh ann && printf '[[chain]]\nname = "see"\ntasks = ["arm"]\n' >> ann/teams/arm.toml && save ann 'a chain' && push ann
  cam.toml: see is the name of a chain of arm.toml, too; give one of them another name
  refused: TakenChain cam see arm
  team cam (cy or root) or team arm (yours) has to call its chain see by another name
  refused: COMMIT "a chain"
  $ fresh cy && sed -i '$a age = 100' cy/teams/cam.toml && save cy 'too short' && push cy
  admitted 4
  was admitted 4
  changed chain see bound 47610 47610 slack - -47510 keys limit - 100
  note: in the new set's best order a chain misses its limit: desk admit says which
  chain see 47610 misses 100 least 45100
  what a bound is the sum of: desk explain, on these documents
  refused: COMMIT "too short" is not admitted

Offsets that no longer fit a period:

  $ fresh cy && sed -i '$a offsets = [0, 4500]' cy/teams/cam.toml && save cy 'on a clock' && push cy | head -n 1
  admitted 4
  $ fresh ann && sed -i 's/^\(period\|deadline\) = .*/\1 = 4400/' ann/teams/arm.toml && save ann 'more often' && push ann
  cam.toml: line 7, chain 1 (see): the offset of arm has to be below its period, 4400; it is 4500
  refused: BadOffset see arm
  the chain see has offsets: team cam (cy or root) has to change them in teams/cam.toml, first or in the same commit, or arm to keep its period
  refused: COMMIT "more often"

What the server fails in is told as that:

  $ fresh cy && git -C cy commit -q --allow-empty -m 'once more'; printf 'bob: base\n' >> node.git/desk-teams && push cy
  refused: the server failed, and this was not judged: desk-teams: line 5 means nothing; a line is USER TEAM, or USER *
  push again later; if it stays so, tell whoever runs the server
