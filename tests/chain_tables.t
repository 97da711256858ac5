Which chains documents say, and why they say none. Each command on a set reads them; those that say none are refused behind
all else.

  $ cat > tasks.toml << END
  > [[task]]
  > name = "camera"
  > period = 10000
  > deadline = 10000
  > cost = 1000
  > [[task]]
  > name = "plan"
  > period = 20000
  > deadline = 20000
  > cost = 2000
  > END
  $ refusal() { { cat tasks.toml; printf "$1"; } > set.toml; desk "${2:-certify}" set.toml; }
  $ refusal '[[chain]]\nname = "steer"\ntasks = ["camera", "plan"]\nage = 45000\n' | head -n 2
  desk-certificate 5
  best 2

Of a document, for each chain in turn: its keys, the kinds of its values, names, how many tasks, limits, how many offsets, and
when they write:

  $ { echo 'chain = [1]'; cat tasks.toml; } > set.toml; desk admit set.toml
  refused: WrongKind 0 0 chain
  (on standard error) set.toml: chain has to be an array of tables, each headed by [[chain]]; it is an array with 1
  [4]
  $ refusal '[[chain]]\nname = "steer"\ntasks = ["plan"]\n[[chain]]\nlimit = 1\n'
  refused: ChainUnknownKey 2
  (on standard error) set.toml: line 14, chain 2: unknown key limit; a chain has name, tasks, age, reaction, offsets, writes
  [4]
  $ refusal '[[chain]]\nname = "steer"\n'
  refused: ChainMissingKey 1 tasks
  (on standard error) set.toml: line 11, chain 1 (steer): no key tasks; a chain needs name, tasks
  [4]
  $ refusal '[[chain]]\nname = "steer"\ntasks = "plan"\n'
  refused: ChainWrongKind 1 tasks
  (on standard error) set.toml: line 11, chain 1 (steer): tasks has to be an array of strings, as ["a", "b"]; it is the string "plan"
  [4]
  $ refusal '[[chain]]\nname = "steer"\ntasks = ["plan"]\nage = -1\n'
  refused: ChainWrongKind 1 age
  (on standard error) set.toml: line 11, chain 1 (steer): age has to be a whole number of microseconds from 1, without quotes; it is -1
  [4]
  $ refusal '[[chain]]\nname = "steer"\ntasks = ["plan", "9"]\n'
  refused: BadChainName 1
  (on standard error) set.toml: line 11, chain 1 (steer): tasks: "9" is no name; a name is 1 to 24 of the letters a to z and A to Z, digits, _ and -, a letter first
  [4]
  $ refusal '[[chain]]\nname = "steer"\ntasks = []\n'
  refused: ChainLength 1
  (on standard error) set.toml: line 11, chain 1 (steer): a chain has 1 to 8 tasks; it has 0
  [4]
  $ refusal '[[chain]]\nname = "steer"\ntasks = ["plan", "camera", "plan"]\n'
  refused: ChainTaskTwice 1
  (on standard error) set.toml: line 11, chain 1 (steer): a task stands twice in it: plan
  [4]
  $ refusal '[[chain]]\nname = "steer"\ntasks = ["plan"]\nage = 1\nreaction = 1000000001\n'
  refused: BadLimit 1 reaction
  (on standard error) set.toml: line 11, chain 1 (steer): reaction has to be from 1 to 1000000000; it is 1000000001
  [4]
  $ refusal '[[chain]]\nname = "steer"\ntasks = ["plan"]\noffsets = 0\nwrites = 0\n'
  refused: ChainWrongKind 1 offsets
  (on standard error) set.toml: line 11, chain 1 (steer): offsets has to be an array of whole numbers of microseconds from 0, as [0, 500]; it is 0
  [4]
  $ refusal '[[chain]]\nname = "steer"\ntasks = ["plan"]\noffsets = [0, -1, "0"]\n'
  refused: ChainWrongKind 1 offsets
  (on standard error) set.toml: line 11, chain 1 (steer): offsets has to be an array of whole numbers of microseconds from 0, as [0, 500]; it is an array with -1
  [4]
  $ refusal '[[chain]]\nname = "steer"\ntasks = ["plan"]\nreaction = []\noffsets = [1.0]\n'
  refused: ChainWrongKind 1 reaction
  (on standard error) set.toml: line 11, chain 1 (steer): reaction has to be a whole number of microseconds from 1, without quotes; it is an array
  [4]
  $ refusal '[[chain]]\nname = "steer"\ntasks = ["camera", "plan"]\noffsets = [0]\nwrites = "end"\n'
  refused: BadOffsets 1
  (on standard error) set.toml: line 11, chain 1 (steer): offsets has to have one number for each of tasks; it has 1, tasks has 2
  [4]
  $ refusal '[[chain]]\nname = "steer"\ntasks = ["plan"]\noffsets = []\n'
  refused: BadOffsets 1
  (on standard error) set.toml: line 11, chain 1 (steer): offsets has to have one number for each of tasks; it has 0, tasks has 1
  [4]
  $ refusal '[[chain]]\nname = "steer"\ntasks = ["plan"]\noffsets = [0, 0]\nreaction = 0\n'
  refused: BadLimit 1 reaction
  (on standard error) set.toml: line 11, chain 1 (steer): reaction has to be from 1 to 1000000000; it is 0
  [4]
  $ refusal '[[chain]]\nname = "steer"\ntasks = ["plan"]\nage = 1\nwrites = "end"\n'
  refused: BadWrites 1
  (on standard error) set.toml: line 11, chain 1 (steer): writes has to be "finish" or "deadline"; it is the string "end"
  [4]
  $ refusal '[[chain]]\nname = "steer"\ntasks = ["9"]\nage = -1\nwrites = ["deadline"]\n' | head -n 1
  refused: ChainWrongKind 1 age
  (on standard error) set.toml: line 11, chain 1 (steer): age has to be a whole number of microseconds from 1, without quotes; it is -1
  $ refusal '[[chain]]\nname = "steer"\ntasks = ["9"]\nage = 0\nwrites = ["deadline"]\n'
  refused: ChainWrongKind 1 writes
  (on standard error) set.toml: line 11, chain 1 (steer): writes has to be "finish" or "deadline"; it is an array
  [4]

Then how many there are, and their names; of a chain that stands twice the second:

  $ for k in 1 2 3 4 5 6 7 8 9 10 11 12 13 14 15 16 17; do printf '[[chain]]\nname = "c%s"\ntasks = ["plan"]\n' $k; done > many
  $ refusal "$(cat many)"
  refused: TooManyChains
  (on standard error) set.toml: more than 16 chains: there are 17
  [4]
  $ refusal '[[chain]]\nname = "a"\ntasks = ["none"]\n[[chain]]\nname = "a"\ntasks = ["plan"]\n'
  refused: SameChain 2
  (on standard error) set.toml: line 14, chain 2 (a): a chain before it has its name
  [4]
  $ refusal '[[chain]]\nname = "a"\ntasks = ["camera", "none"]\n' settings
  refused: ChainTask a none
  (on standard error) set.toml: line 11, chain 1 (a): the set has no task none; a chain's tasks are names of tasks, of any team
  [4]

Then of all chains, one by one, their offsets, which are times of one clock: below the task's period, and of a task the same in
all chains that have one:

  $ refusal '[[chain]]\nname = "a"\ntasks = ["plan"]\noffsets = [19999]\n[[chain]]\nname = "b"\ntasks = ["camera", "plan"]\noffsets = [9999, 19999]\n' | head -n 2
  desk-certificate 5
  best 2
  $ refusal '[[chain]]\nname = "steer"\ntasks = ["camera", "plan"]\noffsets = [0, 20000]\n'
  refused: BadOffset steer plan
  (on standard error) set.toml: line 11, chain 1 (steer): the offset of plan has to be below its period, 20000; it is 20000
  [4]
  $ refusal '[[chain]]\nname = "a"\ntasks = ["plan"]\noffsets = [5]\n[[chain]]\nname = "b"\ntasks = ["plan"]\n[[chain]]\nname = "c"\ntasks = ["camera", "plan"]\noffsets = [5, 6]\n' settings
  refused: BadOffset c plan
  (on standard error) set.toml: line 18, chain 3 (c): the offset of plan is 6, but 5 in chain a before it; a task arrives on one clock
  [4]
  $ refusal '[[chain]]\nname = "a"\ntasks = ["plan"]\noffsets = [20000]\n[[chain]]\nname = "b"\ntasks = ["none"]\n'
  refused: ChainTask b none
  (on standard error) set.toml: line 15, chain 2 (b): the set has no task none; a chain's tasks are names of tasks, of any team
  [4]

And where they are known, all tasks of a chain arrive as at first after 10,000 arrivals of the first one at most:

  $ odd() { { sed "s/10000/9999/; s/20000/$1/" tasks.toml; printf '[[chain]]\nname = "a"\ntasks = ["camera", "plan"]\n'"$2"'[[chain]]\nname = "b"\ntasks = ["plan"]\noffsets = [%s]\n' "$3"; } > set.toml; desk certify set.toml; }
  $ odd 10000 'offsets = [0, 0]\n' 0 | head -n 2
  desk-certificate 5
  best 2
  $ odd 10001 'offsets = [0, 0]\n' 10001
  refused: TooManyArrivals a
  (on standard error) set.toml: line 11, chain 1 (a): its first task arrives more than 10000 times until all its tasks arrive as at first; their periods are 9999, 10001
  [4]
  $ odd 10001 '' 10000 | head -n 2
  desk-certificate 5
  best 2

Each document of a folder has chains, of all teams' tasks; no two of one name:

  $ mkdir node; printf '[[chain]]\nname = "all"\ntasks = ["camera", "wheel"]\n' > node/node.toml
  $ { cat tasks.toml; printf '[[chain]]\nname = "steer"\ntasks = ["plan", "wheel"]\n'; } > node/cam.toml
  $ printf '[[task]]\nname = "wheel"\nperiod = 5000\ndeadline = 5000\ncost = 600\n[[chain]]\nname = "steer"\ntasks = ["wheel"]\n' > node/drive.toml
  $ desk certify node
  refused: TakenChain drive steer cam
  (on standard error) node: drive.toml: steer is the name of a chain of cam.toml, too; give one of them another name
  [4]
  $ sed -i 's/"steer"/"all"/' node/drive.toml; desk certify node
  refused: TakenChain drive all node
  (on standard error) node: drive.toml: all is the name of a chain of node.toml, too; give one of them another name
  [4]
  $ sed -i 's/"all"/"9"/' node/drive.toml; desk certify node
  refused: team drive BadChainName 1
  (on standard error) node: drive.toml: line 6, chain 1 (9): name: "9" is no name; a name is 1 to 24 of the letters a to z and A to Z, digits, _ and -, a letter first
  [4]
  $ sed -i 's/"9"/"wheels"/' node/drive.toml; desk certify node | head -n 2
  desk-certificate 5
  best 3
  $ sed 's/"wheel"\]/"tire"]/' node/node.toml > with; cp node/node.toml kept; cp with node/node.toml; desk certify node
  refused: ChainTask all tire
  (on standard error) node: node.toml: line 1, chain 1 (all): the set has no task tire; a chain's tasks are names of tasks, of any team
  [4]
  $ cp kept node/node.toml; cp node/drive.toml kept; sed -i 's/tasks = \["wheel"\]/tasks = ["tire"]/' node/drive.toml; desk certify node
  refused: ChainTask wheels tire
  (on standard error) node: drive.toml: line 6, chain 1 (wheels): the set has no task tire; a chain's tasks are names of tasks, of any team
  [4]
  $ cp kept node/drive.toml
  $ cp -r node clock; echo 'offsets = [0, 100]' >> clock/node.toml; echo 'offsets = [200]' >> clock/drive.toml; desk certify clock
  refused: BadOffset wheels wheel
  (on standard error) clock: drive.toml: line 6, chain 1 (wheels): the offset of wheel is 200, but 100 in chain all before it; a task arrives on one clock
  [4]
  $ sed -i 's/offsets = .*/offsets = [10000, 200]/' clock/node.toml; desk certify clock
  refused: BadOffset all camera
  (on standard error) clock: node.toml: line 1, chain 1 (all): the offset of camera has to be below its period, 10000; it is 10000
  [4]
  $ printf 'age = 0\n' >> node/node.toml; desk certify node
  refused: node BadLimit 1 age
  (on standard error) node: node.toml: line 1, chain 1 (all): age has to be from 1 to 1000000000; it is 0
  [4]
  $ printf '[[chain]]\nname = "a"\ntasks = ["plan"]\nage = 0\n' > chain; cat tasks.toml chain > new.toml
  $ desk diff tasks.toml new.toml
  refused: new BadLimit 1 age
  (on standard error) new.toml: line 11, chain 1 (a): age has to be from 1 to 1000000000; it is 0
  [4]

A script has no chains:

  $ { cat tasks.toml; printf '[[chain]]\nname = "a"\ntasks = ["plan"]\n'; } > set.toml; desk script set.toml 1
  open 1
  put 1 camera 0 10000 10000 1000
  put 1 plan 0 20000 20000 2000
  commit 1
  (on standard error) note: a script has no chains: those of the set are left out
