`--prefer deadline` takes a set by its deadlines, less jitter, in place of its weights: of the orders that pass the best is
then the one nearest to the longest such limit lowest. Each command that reads a set has the option.

Three tasks that pass in each order, each with one job of each other above it. By their names a, of the shortest deadline,
comes lowest; by their deadlines c does:

  $ for row in a:10000:1000 b:15000:2000 c:20000:3000; do IFS=: read name deadline cost << END
  > $row
  > END
  > printf '[[task]]\nname = "%s"\nperiod = 20000\ndeadline = %s\ncost = %s\n' $name $deadline $cost; done > set.toml
  $ desk admit set.toml
  admitted 3
  1 a 6000
  2 b 5000
  3 c 3000
  $ desk admit --prefer deadline set.toml
  admitted 3
  1 c 6000
  2 b 3000
  3 a 1000
  $ desk settings set.toml --prefer=deadline
  thread c 1
  thread b 2
  thread a 3
  $ desk explain --prefer deadline set.toml | grep ' of '
  1 c 6000 of 20000
  2 b 3000 of 15000
  3 a 1000 of 10000

c lowest may cost 20000 - 1000 - 2000; b below a 15000 - 1000; a its deadline. All three together fill c's 20000 at the
factor 20 / 6, rounded down:

  $ desk limits --prefer deadline set.toml | grep -e cost -e all
  c cost 3000 17000 17000
  b cost 2000 14000 14000
  a cost 1000 10000 10000
  all 3333 3333 c

By deadlines no task of a certificate has to fail; by weights a, of least rank, has to, below b and c:

  $ desk certify --prefer deadline set.toml | tee cert
  desk-certificate 1
  best 3
  level 1 c 6000
  level 2 b 3000
  level 3 a 1000
  end
  $ desk check --prefer deadline set.toml cert
  best
  $ desk check set.toml cert
  refused: MissingFail 1 a
  [5]

What settings say is judged the same by any preference, since they say the order:

  $ desk settings --prefer deadline set.toml | desk judge --prefer deadline set.toml -
  meets 3
  1 c 6000 of 20000 at 1
  2 b 3000 of 15000 at 2
  3 a 1000 of 10000 at 3

A release list names the tasks by rank, and the simulated kernel runs the best order:

  $ desk releases --prefer deadline set.toml 6000 | tee list
  until 6000
  0 c
  0 b
  0 a
  $ desk simulate --prefer deadline set.toml list
  0 1000 a
  1000 3000 b
  3000 6000 c
  job c 0 6000
  job b 0 3000
  job a 0 1000
  $ desk draw --prefer deadline set.toml list | grep -c 'a: arrival 0, done 1000, response 1000, bound 1000, deadline 10000 us'
  1

Another word is refused before an input is opened:

  $ desk admit --prefer names no-such-file 2>&1
  no such preference: --prefer takes weight, deadline or chains
  [2]

The jitter counts. a has the later deadline, 10000, and b 9000; but a may become ready 5000 late, so that 5000 is left. By
deadlines, less jitter, b is the lower one, and all of it may take longer:

  $ printf '[[task]]\nname = "a"\nperiod = 10000\ndeadline = 10000\njitter = 5000\ncost = 1000\n' > late.toml
  $ printf '[[task]]\nname = "b"\nperiod = 10000\ndeadline = 9000\ncost = 1000\n' >> late.toml
  $ desk admit --prefer deadline late.toml
  admitted 2
  1 b 2000
  2 a 6000

A set may say so itself. Each command then takes it so, and what one prints means the same order to the next:

  $ (echo 'prefer = "deadline"'; cat set.toml) > own.toml
  $ desk admit own.toml
  admitted 3
  1 c 6000
  2 b 3000
  3 a 1000
  $ desk certify own.toml | desk check own.toml -
  best
  $ desk releases own.toml 6000 | desk simulate own.toml - | grep job
  job c 0 6000
  job b 0 3000
  job a 0 1000
  $ desk settings own.toml
  thread c 1
  thread b 2
  thread a 3

By weights it is as if it said nothing:

  $ (echo 'prefer = "weight"'; cat set.toml) > plain.toml
  $ desk admit plain.toml
  admitted 3
  1 a 6000
  2 b 5000
  3 c 3000

The words of a call come before what the set says, and a note tells of it where they differ:

  $ desk admit --prefer deadline plain.toml
  admitted 3
  1 c 6000
  2 b 3000
  3 a 1000
  (on standard error) note: --prefer deadline overrides the set's prefer = "weight"
  $ desk admit --prefer weight own.toml
  admitted 3
  1 a 6000
  2 b 5000
  3 c 3000
  (on standard error) note: --prefer weight overrides the set's prefer = "deadline"
  $ desk admit --prefer deadline own.toml 2>&1 | grep -c note
  0
  [1]

Of two sets each is told of:

  $ desk diff --prefer deadline own.toml plain.toml > said
  (on standard error) note: --prefer deadline overrides the new set's prefer = "weight"
  $ desk releases own.toml 1000 | desk draw --prefer weight own.toml - --beside own.toml > said
  (on standard error) note: --prefer weight overrides the set's prefer = "deadline"
  (on standard error) note: --prefer weight overrides the new set's prefer = "deadline"

Where nobody prefers anything, no task has a weight, and names put a task lower than one of a longer deadline, less jitter, a
note says so; in the set of two tasks above names put a, of the shorter one, lower:

  $ desk admit late.toml
  admitted 2
  1 a 7000
  2 b 1000
  (on standard error) note: names decide the order; prefer = "deadline" in front of the tasks has shorter ones higher
  $ for command in limits settings explain worst; do desk $command late.toml 2>&1 > /dev/null; done
  note: names decide the order; prefer = "deadline" in front of the tasks has shorter ones higher
  note: names decide the order; prefer = "deadline" in front of the tasks has shorter ones higher
  note: names decide the order; prefer = "deadline" in front of the tasks has shorter ones higher
  note: names decide the order; prefer = "deadline" in front of the tasks has shorter ones higher
  $ printf 'until 7000\n0 a\n0 b\n' > run
  $ desk simulate late.toml run --tasks > said
  (on standard error) note: names decide the order; prefer = "deadline" in front of the tasks has shorter ones higher
  $ desk simulate late.toml run 2> said | desk observe late.toml - 2>&1 > /dev/null
  note: names decide the order; prefer = "deadline" in front of the tasks has shorter ones higher
  $ printf 'thread a 1\nthread b 2\n' | cat - run | desk simulate late.toml - > said
  $ desk certify late.toml 2>&1 > /dev/null
  $ sed 's/^cost = 1000$/cost = 6000/' late.toml | desk admit - 2>&1 | grep -e infeasible -e names
  infeasible a b
  $ for set in own.toml plain.toml; do desk admit $set 2>&1 > /dev/null; done
  $ sed 's/^cost/weight = 1\ncost/' late.toml | desk admit - 2>&1 > /dev/null
  $ sed 's/^name = "b"/name = "A"/' late.toml | desk admit - 2>&1 > /dev/null

What one team's document says holds for all, whoever has the tasks; another one may say the same, and nothing else:

  $ mkdir node
  $ sed 1,10d set.toml > node/arm.toml
  $ sed 11,99d set.toml > node/base.toml
  $ desk admit node
  admitted 3
  1 a 6000
  2 b 5000
  3 c 3000
  $ echo 'prefer = "deadline"' > node/main.toml
  $ desk admit node
  admitted 3
  1 c 6000
  2 b 3000
  3 a 1000
  $ echo 'prefer = "deadline"' > node/other.toml
  $ desk settings node
  thread c 1
  thread b 2
  thread a 3
  $ echo 'prefer = "weight"' > node/cam.toml
  $ desk admit node
  refused: OtherPreference main cam
  [4]

`--prefer chains` has tasks of no chain lowest, and a task the higher, the further it stands from the end of a chain; of one
place those of longer deadlines, less jitter, come lower. Three tasks, of which log is in no chain, though its deadline is
the shortest. Only this order meets the chain:

  $ for row in sense:20000:3000 act:10000:1000 log:8000:2000; do IFS=: read name period cost << END
  > $row
  > END
  > printf '[[task]]\nname = "%s"\nperiod = %s\ndeadline = %s\ncost = %s\n' $name $period $period $cost; done > tasks.toml
  $ { cat tasks.toml; printf '[[chain]]\nname = "turn"\ntasks = ["sense", "act"]\nage = 35000\n'; } > turn.toml
  $ desk admit --prefer weight turn.toml
  admitted 3
  1 act 6000
  2 log 5000
  3 sense 3000
  chain turn 36000 misses 35000 least 31000
  [3]
  $ desk admit --prefer deadline turn.toml
  admitted 3
  1 sense 6000
  2 act 3000
  3 log 2000
  chain turn 38000 misses 35000 least 31000
  [3]
  $ desk admit --prefer chains turn.toml
  admitted 3
  1 log 6000
  2 act 4000
  3 sense 3000
  chain turn 34000 of 35000
  $ (echo 'prefer = "chains"'; cat turn.toml) > own.toml
  $ desk admit own.toml | tail -n 1
  chain turn 34000 of 35000
  $ desk settings own.toml | desk judge own.toml - | tail -n 1
  chain turn 34000 of 35000
  $ desk diff turn.toml own.toml | grep prefer
  prefer weight chains
  $ desk admit --prefer deadline own.toml 2>&1 > /dev/null | grep note
  note: --prefer deadline overrides the set's prefer = "chains"

Of several chains the greatest place counts; without chains it is the order by deadlines, as where a document's are refused,
for a doubt comes first:

  $ { cat turn.toml; printf '[[chain]]\nname = "note"\ntasks = ["act", "log"]\n'; } | desk admit --prefer chains - | head -n 4
  admitted 3
  1 log 6000
  2 sense 4000
  3 act 1000
  $ for by in chains deadline; do desk admit --prefer $by tasks.toml > $by; done; cmp chains deadline
  $ sed 's/35000/0/' own.toml | desk admit - 2> /dev/null
  refused: BadLimit 1 age
  [4]
  $ sed 's/"act"\]/"none"]/' own.toml | desk admit - 2> /dev/null
  refused: ChainTask turn none
  [4]
  $ sed 's/35000/0/; s/^cost = 2000/&\nsection = [{ locks = ["m"], len = 1 }]/' own.toml | desk admit --strict - 2> /dev/null
  refused: LoneLock log m
  [4]

What one team prefers by chains holds for the chains of all:

  $ mkdir both
  $ sed 6,99d tasks.toml > both/nose.toml
  $ sed 1,5d turn.toml > both/wheels.toml
  $ echo 'prefer = "chains"' > both/node.toml
  $ desk admit both | tail -n 1
  chain turn 34000 of 35000
  $ echo 'prefer = "deadline"' | cat - both/nose.toml > both/arm.toml
  $ echo '[team.arm]
  > node = true' >> both/node.toml
  $ rm both/nose.toml
  $ desk admit both 2> /dev/null
  refused: OtherPreference arm node
  [4]
