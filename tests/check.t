`desk check SET CERT` accepts anybody's certificate that shows what it claims, and refuses any other with status 5. It
has arithmetic of its own. `body` gives the lines between the first and the last of a certificate:

  $ body() { echo "desk-certificate 1"; cat; echo end; }

The desk's own
--------------

  $ desk check examples/three-tasks.toml examples/three-tasks.cert
  best
  $ desk check examples/blocked-out.toml examples/blocked-out.cert
  no order
  $ body << END | desk check examples/empty-set.toml -
  > best 0
  > END
  best

Other people's, accepted
------------------------

A chain that leaps less than the demand, and a number above the least that still covers it. At 9000 b's demand below a
and c is 3000 + 2 * 3000 + 5000 = 14000; below b, at 6500, a's is 6000:

  $ body << END | desk check examples/three-tasks.toml -
  > best 3
  > level 1 c 20000
  > fails a 1 8000
  > fails b 1 9000 14000
  > level 2 a 6500
  > level 3 b 3000
  > END
  best

Members in any order:

  $ body << END | desk check examples/three-tasks-too-tight.toml -
  > none 3
  > member c 1 11000 14000 17000 20000
  > member a 1 11000
  > member b 1 11000 14000
  > END
  no order

WrongTasks: the levels or members aren't the tasks
--------------------------------------------------

d is no task; no level at all; a level or a member twice; a member that is no task:

  $ body << END | desk check examples/three-tasks.toml -
  > best 3
  > level 1 d 20000
  > fails a 1 11000
  > fails b 1 11000 14000
  > level 2 a 6000
  > level 3 b 3000
  > END
  refused: WrongTasks 0
  [5]
  $ body << END | desk check examples/three-tasks.toml -
  > best 0
  > END
  refused: WrongTasks 0
  [5]
  $ body << END | desk check examples/three-tasks.toml -
  > best 3
  > level 1 c 20000
  > fails a 1 11000
  > fails b 1 11000 14000
  > level 2 c 20000
  > level 3 b 3000
  > END
  refused: WrongTasks 0
  [5]
  $ body << END | desk check examples/blocked-out.toml -
  > none 2
  > member hi 1 4500
  > member hi 1 4500
  > END
  refused: WrongTasks 0
  [5]
  $ body << END | desk check examples/blocked-out.toml -
  > none 1
  > member d 1 4500
  > END
  refused: WrongTasks 0
  [5]

Failures out of order; of a task of greater rank than the level's:

  $ body << END | desk check examples/three-tasks.toml -
  > best 3
  > level 1 c 20000
  > fails b 1 11000 14000
  > fails a 1 11000
  > level 2 a 6000
  > level 3 b 3000
  > END
  refused: WrongTasks 1
  [5]
  $ body << END | desk check examples/three-tasks.toml -
  > best 3
  > level 1 c 20000
  > fails a 1 11000
  > fails b 1 11000 14000
  > level 2 a 6000
  > fails b 1 6000 13000
  > level 3 b 3000
  > END
  refused: WrongTasks 2
  [5]

BadPass: a level's number isn't from 1 to the deadline, or is below its demand
------------------------------------------------------------------------------

At 19999 c's demand is 20000:

  $ body << END | desk check examples/three-tasks.toml -
  > best 3
  > level 1 c 19999
  > fails a 1 11000
  > fails b 1 11000 14000
  > level 2 a 6000
  > level 3 b 3000
  > END
  refused: BadPass 1
  [5]
  $ body << END | desk check examples/three-tasks.toml -
  > best 3
  > level 1 c 9999999999
  > fails a 1 11000
  > fails b 1 11000 14000
  > level 2 a 6000
  > level 3 b 3000
  > END
  refused: BadPass 1
  [5]
  $ body << END | desk check examples/three-tasks.toml -
  > best 3
  > level 1 c 20000
  > fails a 1 11000
  > fails b 1 11000 14000
  > level 2 a 7001
  > level 3 b 3000
  > END
  refused: BadPass 2
  [5]
  $ body << END | desk check examples/three-tasks.toml -
  > best 3
  > level 1 c 20000
  > fails a 1 11000
  > fails b 1 11000 14000
  > level 2 a 6000
  > level 3 b 0
  > END
  refused: BadPass 3
  [5]

BadChain: the numbers aren't a chain of the task
------------------------------------------------

From 11000 b's chain goes to 14000 at most; a's from 1 to 11000; a chain begins with 1, rises, and ends past the
deadline, once:

  $ chain() { body << END | desk check examples/three-tasks.toml -
  > best 3
  > level 1 c 20000
  > fails a $1
  > fails b $2
  > level 2 a 6000
  > level 3 b 3000
  > END
  > }
  $ chain '1 11000' '1 11000 15000'
  refused: BadChain 1 b
  [5]
  $ chain '1 9999999999' '1 11000 14000'
  refused: BadChain 1 a
  [5]
  $ chain '2 11000' '1 11000 14000'
  refused: BadChain 1 a
  [5]
  $ chain '1 11000' '1 11000 11000 14000'
  refused: BadChain 1 b
  [5]
  $ chain '1 11000' '1 11000'
  refused: BadChain 1 b
  [5]
  $ chain '1 11000 14000' '1 11000 14000'
  refused: BadChain 1 a
  [5]
  $ chain '1 11000' '1 11000 14000'
  best

lo passes below hi: 14000 isn't past its deadline.

  $ body << END | desk check examples/blocked-out.toml -
  > none 2
  > member hi 1 12000
  > member lo 1 12000 14000
  > END
  refused: BadChain 0 lo
  [5]

MissingFail: a remaining task of smaller rank has no failure
------------------------------------------------------------

The order c, b, a passes, too, and isn't the best:

  $ desk check examples/three-tasks.toml examples/three-tasks-missing-failure.cert
  refused: MissingFail 2 a
  [5]
  $ body << END | desk check examples/three-tasks.toml -
  > best 3
  > level 1 c 20000
  > level 2 a 6000
  > level 3 b 3000
  > END
  refused: MissingFail 1 a
  [5]

EmptySet: no member
-------------------

  $ body << END | desk check examples/blocked-out.toml -
  > none 0
  > END
  refused: EmptySet
  [5]

WrongChains, BadAge: the lines of chains
----------------------------------------

Behind `best` stands each chain with its number, which may be greater than its bound; a missed limit is no fault:

  $ desk check examples/steer.toml examples/steer.cert
  best
  chain steer 44200 of 45000
  $ steer() { sed "$1" examples/steer.cert | desk check examples/steer.toml -; }
  $ steer 's/44200/45001/'
  best
  chain steer 45001 misses 45000
  $ steer 's/44200/9999999999/'
  best
  chain steer 9999999999 misses 45000
  $ grep -v reaction examples/steer.toml | desk check - examples/steer.cert
  best
  chain steer 44200
  $ steer 's/44200/44199/'
  refused: BadAge steer
  [5]

A greater number of a level counts, of a task of the chain:

  $ steer 's/plan 9200/plan 9300/'
  refused: BadAge steer
  [5]
  $ steer 's/plan 9200/plan 9300/; s/44200/44300/'
  best
  chain steer 44300 of 45000
  $ steer 's/log 17400/log 17500/'
  best
  chain steer 44200 of 45000

The set's chains, each once, in order:

  $ steer '/chain/d'
  refused: WrongChains
  [5]
  $ steer 's/chain steer/chain wheel/'
  refused: WrongChains
  [5]
  $ steer 's/chain.*/&\n&/'
  refused: WrongChains
  [5]
  $ { cat examples/steer.toml; printf '[[chain]]\nname = "see"\ntasks = ["camera"]\nage = 12600\n'; } > two.toml
  $ desk certify two.toml > two.cert
  $ desk check two.toml two.cert
  best
  chain steer 44200 of 45000
  chain see 12600 of 12600
  $ { head -n 6 two.cert; echo 'chain see 12600'; echo 'chain steer 44200'; echo end; } | desk check two.toml -
  refused: WrongChains
  [5]
  $ sed 's/44200/1/; s/12600/1/' two.cert | desk check two.toml -
  refused: BadAge steer
  [5]

All else comes first, and version 5 is for such sets alone:

  $ steer 's/44200/1/; s/wheel 600/wheel 599/'
  refused: BadPass 4
  [5]
  $ steer 's/cate 5/cate 4/; /chain/d'
  refused: WrongVersion
  [5]
  $ sed 's/cate 1/cate 5/' examples/three-tasks.cert | desk check examples/three-tasks.toml -
  refused: WrongVersion
  [5]
  $ steer '/chain/d; /level/d; s/best 4/none 0/'
  refused: WrongVersion
  [5]

The lines stand behind the levels, in version 5 alone, and behind no members:

  $ steer 's/cate 5/cate 4/'
  refused: BadLine 7
  [5]
  $ steer '/^chain/d; s/^level 4/chain steer 44200\n&/'
  refused: BadLine 6
  [5]
  $ steer '/level/d; s/best 4/none 0/'
  refused: BadLine 3
  [5]
  $ steer 's/44200/& 1/'
  refused: BadLine 7
  [5]
  $ steer 's/44200/044200/'
  refused: BadLine 7
  [5]
  $ steer 's/44200/12345678901/'
  refused: BadLine 7
  [5]
  $ steer 's/chain steer/chain 9/'
  refused: BadLine 7
  [5]

Which refusal comes first
-------------------------

Each is looked for in the whole certificate before the next: WrongTasks at level 2 before BadPass at level 1, BadPass
at level 3 before BadChain at level 1, BadChain at level 2 before MissingFail at level 1:

  $ body << END | desk check examples/three-tasks.toml -
  > best 3
  > level 1 c 19999
  > fails a 1 11000
  > fails b 1 11000 14000
  > level 2 a 6000
  > fails b 1 6000 13000
  > level 3 b 3000
  > END
  refused: WrongTasks 2
  [5]
  $ body << END | desk check examples/three-tasks.toml -
  > best 3
  > level 1 c 20000
  > fails a 2 11000
  > fails b 1 11000 14000
  > level 2 a 6000
  > level 3 b 2999
  > END
  refused: BadPass 3
  [5]
  $ body << END | desk check examples/three-tasks.toml -
  > best 3
  > level 1 c 20000
  > fails a 1 11000
  > level 2 b 6000
  > fails a 1 6000
  > level 3 a 3000
  > END
  refused: BadChain 2 a
  [5]

The text
--------

The first line, each later line, the end, what follows:

  $ text() { printf "$1" | desk check examples/three-tasks.toml -; }
  $ text 'desk-certificate 3\n'
  refused: BadHead
  [5]
  $ text 'desk-certificate 6\n'
  refused: BadHead
  [5]
  $ text 'desk-certificate 1\r\nbest 0\nend\n'
  refused: BadHead
  [5]
  $ text '\n'
  refused: BadHead
  [5]
  $ text 'desk-certificate 1\nbest 33\n'
  refused: BadLine 2
  [5]
  $ text 'desk-certificate 1\nworst 3\n'
  refused: BadLine 2
  [5]
  $ text 'desk-certificate 1\nbest 1\nend\n'
  refused: BadLine 3
  [5]
  $ text 'desk-certificate 1\nbest 0\n\n'
  refused: BadLine 3
  [5]
  $ text 'desk-certificate 1\nbest 1\nlevel 2 c 20000\nend\n'
  refused: BadLine 3
  [5]
  $ text 'desk-certificate 1\nbest 0\nend\r\n'
  refused: BadLine 3
  [5]
  $ text 'desk-certificate 1\nbest 0\n'
  refused: Truncated
  [5]
  $ text 'desk-certificate 1\nbest 0\nend'
  refused: Truncated
  [5]
  $ text ''
  refused: Truncated
  [5]
  $ text 'desk-certificate 1\nbest 0\nend\n\n'
  refused: Trailing
  [5]

One space between fields and none around them, no leading zero, at most ten digits, a name is a name:

  $ line() { text "desk-certificate 1\nbest 1\n$1\nend\n"; }
  $ line 'level  1 c 20000'
  refused: BadLine 3
  [5]
  $ line 'level 1 c 20000 '
  refused: BadLine 3
  [5]
  $ line ' level 1 c 20000'
  refused: BadLine 3
  [5]
  $ line 'level 1 c 020'
  refused: BadLine 3
  [5]
  $ line 'level 1 c 12345678901'
  refused: BadLine 3
  [5]
  $ line 'level 1 9c 20000'
  refused: BadLine 3
  [5]
  $ line 'level 1 c -1'
  refused: BadLine 3
  [5]
  $ line 'level 1 c 20000\nfails a'
  refused: BadLine 4
  [5]
  $ line 'level 1 c 20000\nmember a 1 11000'
  refused: BadLine 4
  [5]
  $ line 'level 1 c 20000'
  refused: WrongTasks 0
  [5]

Each proper prefix of a certificate is Truncated, one byte more is Trailing:

  $ for n in $(seq 0 113); do
  >   head -c $n examples/three-tasks.cert | desk check examples/three-tasks.toml - 2> told
  > done | grep -c '^refused: Truncated$'
  114
  $ { cat examples/three-tasks.cert; printf e; } | desk check examples/three-tasks.toml - 2> told
  refused: Trailing
  [5]

A faulty set comes first:

  $ echo 'x = 1' | desk check - examples/three-tasks.cert
  refused: UnknownKey 0 0
  [4]
