`--strict` refuses a set for what is a note else and may be a mistake: a lock that one task alone uses, a name to outrank that
no task has, names that decide the order. Each command that reads a set has the option.

`said` prints what a command says to standard error:

  $ said() { desk "$@" 2>&1 > /dev/null; }

Two tasks with all three. Without the option it is an answer, and notes:

  $ cat > set.toml << END
  > [[task]]
  > name = "a"
  > period = 10000
  > deadline = 5000
  > cost = 1000
  > outranks = ["c", "d"]
  > section = [{ locks = ["m", "n"], len = 100 }]
  > 
  > [[task]]
  > name = "b"
  > period = 10000
  > deadline = 9000
  > cost = 1000
  > section = [{ locks = ["m"], len = 100 }]
  > END
  $ desk admit set.toml
  admitted 2
  1 a 2000
  2 b 1100
  (on standard error) note: lock n has one user, a
  (on standard error) note: a outranks c, which is no task of the set: that binds nothing
  (on standard error) note: a outranks d, which is no task of the set: that binds nothing
  (on standard error) note: names decide the order; prefer = "deadline" in front of the tasks has shorter ones higher
  $ desk admit --strict set.toml
  refused: LoneLock a n
  [4]

Once one is mended the next is refused, in the order of the notes; the sentences have their words, and the place:

  $ sed 's/, "n"//' set.toml > shared.toml
  $ desk admit shared.toml --strict
  refused: NoSuchName a c
  [4]
  $ sed '/outranks/d' shared.toml > known.toml
  $ desk admit --strict known.toml
  refused: NamesDecide a b
  [4]
  $ for set in set shared known; do said admit --strict $set.toml; done
  set.toml: line 1, task 1 (a): lock n has one user, a
  shared.toml: line 1, task 1 (a): a outranks c, which is no task of the set: that binds nothing
  known.toml: names decide the order; prefer = "deadline" in front of the tasks has shorter ones higher
  [4]

Where somebody prefers, or a task has a weight, or no task stands below one of a longer limit, names decide nothing:

  $ desk admit --strict --prefer deadline known.toml
  admitted 2
  1 b 2000
  2 a 1100
  $ (echo 'prefer = "weight"'; cat known.toml) | desk admit --strict - | head -1
  admitted 2
  $ sed 's/"b"/"0b"/; s/0b/A/' known.toml | desk admit --strict - | head -1
  admitted 2
  $ sed '$ a weight = 1' known.toml | desk admit --strict - | head -1
  admitted 2

The set is judged, not the answer: so names that decide are refused by each command, whatever passes and whoever gives the
order, and each comes to the same:

  $ desk settings known.toml > given
  $ printf 'until 2000\n0 a\n' > list
  $ for command in admit explain limits settings certify worst; do desk $command --strict known.toml; done
  refused: NamesDecide a b
  refused: NamesDecide a b
  refused: NamesDecide a b
  refused: NamesDecide a b
  refused: NamesDecide a b
  refused: NamesDecide a b
  [4]
  $ for command in judge check simulate draw observe; do desk $command --strict known.toml given; done
  refused: NamesDecide a b
  refused: NamesDecide a b
  refused: NamesDecide a b
  refused: NamesDecide a b
  refused: NamesDecide a b
  [4]
  $ for command in explain limits worst; do desk $command --strict known.toml --at given; done
  refused: NamesDecide a b
  refused: NamesDecide a b
  refused: NamesDecide a b
  [4]
  $ desk settings known.toml --keep given --strict
  refused: NamesDecide a b
  [4]
  $ desk releases --strict known.toml 2000
  refused: NamesDecide a b
  [4]
  $ desk script --strict known.toml 1
  refused: NamesDecide a b
  [4]
  $ sed 's/cost = 1000/cost = 8000/' known.toml | desk admit --strict -
  refused: NamesDecide a b
  [4]

What is no set comes first, and what is read beside it later:

  $ echo nonsense >> given
  $ desk judge --strict known.toml given
  refused: NamesDecide a b
  [4]
  $ (cat set.toml; echo 'x = 1') | desk admit --strict -
  refused: UnknownKey 2 0
  [4]

`diff` judges the new set alone, so that an old one can be mended:

  $ desk diff --strict set.toml known.toml
  refused: new NamesDecide a b
  [4]
  $ (echo 'prefer = "deadline"'; cat known.toml) > good.toml
  $ desk diff --strict set.toml good.toml | head -2
  admitted 2
  was admitted 2
  $ said diff --strict set.toml shared.toml
  shared.toml: line 1, task 1 (a): a outranks c, which is no task of the set: that binds nothing
  [4]

Of several teams' documents all are judged together, the last one, too; the sentence names the team's:

  $ mkdir node
  $ sed '1,8d' shared.toml > node/arm.toml
  $ sed '9,99d' shared.toml > node/base.toml
  $ said admit --strict node
  node: base.toml: line 1, task 1 (a): a outranks c, which is no task of the set: that binds nothing
  [4]
  $ sed -i 's/"c", "d"/"b"/' node/base.toml
  $ desk admit --strict node
  refused: NamesDecide a b
  [4]
  $ echo 'prefer = "deadline"' > node/main.toml
  $ desk admit --strict node | head -1
  admitted 2
  $ sed -i 's/"m"/"k"/' node/arm.toml
  $ desk admit --strict node
  refused: LoneLock b k
  [4]
  $ said admit --strict node
  node: arm.toml: line 1, task 1 (b): lock k has one user, b
  [4]

By `strict = true` in `node.toml` each call on the folder is strict, of whatever teams:

  $ mv node/main.toml node/node.toml
  $ desk admit node 2> said | head -1
  admitted 2
  $ sed -i '1i strict = true' node/node.toml
  $ desk admit node
  refused: LoneLock b k
  (on standard error) node: arm.toml: line 1, task 1 (b): lock k has one user, b
  [4]
  $ for command in admit explain limits settings certify worst; do desk $command node 2> said; done
  refused: LoneLock b k
  refused: LoneLock b k
  refused: LoneLock b k
  refused: LoneLock b k
  refused: LoneLock b k
  refused: LoneLock b k
  [4]
  $ for command in judge check simulate draw observe; do desk $command node given 2> said; done
  refused: LoneLock b k
  refused: LoneLock b k
  refused: LoneLock b k
  refused: LoneLock b k
  refused: LoneLock b k
  [4]
  $ for command in explain limits worst; do desk $command node --at given 2> said; done
  refused: LoneLock b k
  refused: LoneLock b k
  refused: LoneLock b k
  [4]
  $ desk settings node --keep given 2> said; desk releases node 2000 2> said; desk script node 1 2> said
  refused: LoneLock b k
  refused: LoneLock b k
  refused: LoneLock b k
  [4]
  $ desk diff set.toml node 2> said
  refused: new LoneLock b k
  [4]
  $ desk diff node set.toml 2> said | head -2
  admitted 2
  was admitted 2
  $ sed -i 's/"k"/"m"/' node/arm.toml
  $ desk admit node | head -1
  admitted 2
  $ sed -i 's/^prefer/# prefer/' node/node.toml
  $ desk admit node 2> said
  refused: NamesDecide a b
  [4]
  $ desk admit node --prefer weight | head -1
  admitted 2
  $ sed -i 's/true/false/' node/node.toml
  $ desk admit node 2> said | head -1
  admitted 2
  $ desk admit --strict node 2> said
  refused: NamesDecide a b
  [4]

In any other document `strict` is no key, nor is it by itself:

  $ echo 'strict = true' > node/cam.toml
  $ desk admit node 2> said
  refused: team cam UnknownKey 0 0
  [4]
  $ desk admit node/cam.toml
  refused: UnknownKey 0 0
  (on standard error) node/cam.toml: unknown key strict; a set has tasks, each headed by [[task]], and may have prefer in front of them, [node], [[interrupt]] and [[chain]]
  [4]

`play` and `rush` read no set; the option is a flag:

  $ desk play --strict examples/two-teams-fit.script 2> /dev/null
  [2]
  $ desk admit --strict --strict known.toml 2> /dev/null
  [2]
  $ desk admit --strict=yes known.toml 2> /dev/null
  [2]
