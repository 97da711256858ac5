Tasks that must be outranked. A watchdog stands above what it watches, though it has the least weight of the three:

  $ desk admit examples/watchdog.toml
  admitted 4
  1 log 74500
  2 sensors 9500
  3 motion 3500
  4 watchdog 500
  $ sed '/^outranks/d' examples/watchdog.toml | desk admit -
  admitted 4
  1 log 74500
  2 watchdog 9500
  3 sensors 9000
  4 motion 3000
  $ desk certify examples/watchdog.toml
  desk-certificate 2
  best 4
  level 1 log 74500
  level 2 sensors 9500
  fails watchdog over sensors
  level 3 motion 3500
  fails watchdog over motion
  level 4 watchdog 500
  end

An order of one's own is asked for by naming, for each task, the one below it. This one passes, up to a deadline of
100000 for log:

  $ desk admit examples/own-order.toml
  admitted 5
  1 log 100000
  2 map 58000
  3 camera 16000
  4 steer 2500
  5 brake 500
  $ sed 's/^deadline = 200000/deadline = 99999/' examples/own-order.toml | desk certify -
  desk-certificate 2
  none 5
  member brake over steer
  member camera over map
  member log 1 52500 77500 84000 96500 100000
  member map over log
  member steer over camera
  end
  [3]

`three` gives the three tasks a, b and c of the examples with more keys for each:

  $ three() {
  >   echo "[[task]]"; echo "name = 'a'"; echo "period = 7000"; echo "deadline = 7000"; echo "cost = 3000"; echo "$1"
  >   echo "[[task]]"; echo "name = 'b'"; echo "period = 12000"; echo "deadline = 12000"; echo "cost = 3000"; echo "$2"
  >   echo "[[task]]"; echo "name = 'c'"; echo "period = 20000"; echo "deadline = 20000"; echo "cost = 5000"; echo "$3"
  > }

  $ three "outranks = ['b']" > a-over-b.toml
  $ desk admit a-over-b.toml
  admitted 3
  1 c 20000
  2 b 6000
  3 a 3000
  $ desk certify a-over-b.toml | tee over.cert
  desk-certificate 2
  best 3
  level 1 c 20000
  fails a over b
  fails b 1 11000 14000
  level 2 b 6000
  fails a over b
  level 3 a 3000
  end
  $ desk check a-over-b.toml over.cert
  best
  $ desk check a-over-b.toml examples/three-tasks.cert
  refused: WrongVersion
  [5]
  $ sed 's/^desk-certificate 1/desk-certificate 2/' examples/three-tasks.cert > second.cert
  $ desk check a-over-b.toml second.cert
  refused: BadPass 2
  [5]
  $ sed 's/^desk-certificate 2/desk-certificate 1/' over.cert | desk check a-over-b.toml -
  refused: BadLine 4
  [5]
  $ desk check examples/jitter.toml over.cert
  refused: BadChain 1 a
  [5]
  $ three '' '' "outranks = ['a']" | desk certify -
  desk-certificate 2
  none 3
  member a 1 11000
  member b 1 11000 14000
  member c over a
  end
  [3]
  $ three "outranks = ['b']" "outranks = ['a']" | desk certify -
  desk-certificate 2
  none 2
  member a over b
  member b over a
  end
  [3]

A name that the set hasn't binds nothing:

  $ three "outranks = ['z']" | desk certify - | cmp - examples/three-tasks.cert
  $ three "outranks = ['a']" | desk admit -
  refused: OutranksSelf 1
  [4]

All others are outranked by a word, but for those that say it, too. It is no name:

  $ three "outranks = 'all'" > a-over-all.toml
  $ desk admit a-over-all.toml
  admitted 3
  1 c 20000
  2 b 6000
  3 a 3000
  $ desk certify a-over-all.toml | cmp - over.cert
  $ desk check a-over-all.toml over.cert
  best
  $ desk check a-over-all.toml examples/three-tasks.cert
  refused: WrongVersion
  [5]
  $ three "outranks = 'all'" "outranks = 'all'" > both-over-all.toml
  $ desk certify both-over-all.toml | tee both.cert
  desk-certificate 2
  best 3
  level 1 c 20000
  fails a over c
  fails b over c
  level 2 a 6000
  level 3 b 3000
  end
  $ desk check both-over-all.toml both.cert
  best
  $ desk check both-over-all.toml over.cert
  refused: BadChain 1 a
  [5]
  $ three '' "outranks = 'all'" "outranks = 'all'" | desk certify -
  desk-certificate 2
  none 3
  member a 1 11000
  member b over a
  member c over a
  end
  [3]
  $ three "outranks = 'all'" "outranks = 'all'" "outranks = 'all'" | desk certify - | cmp - examples/three-tasks.cert
  $ three "outranks = ['all']" | desk certify - 2> notes | cmp - examples/three-tasks.cert
  $ cat notes
  note: a outranks all, which is no task of the set: that binds nothing; to outrank all others, write outranks = "all"
  $ three "outranks = 'b'" | desk admit -
  refused: WrongKind 1 0 outranks
  [4]
  $ three "outranks = ['all', 'b', 'all']" | desk admit -
  refused: OutranksTwice 1
  [4]
  $ desk diff a-over-b.toml a-over-all.toml
  admitted 3
  was admitted 3
  changed a level 3 3 bound 3000 3000 slack 4000 4000 keys outranks b *
  $ desk script both-over-all.toml 3 | tee both.script
  open 3
  put 1 a 0 7000 7000 3000 over=*
  put 1 b 0 12000 12000 3000 over=*
  put 1 c 0 20000 20000 5000
  commit 1
  $ desk play both.script | tail -n 4
  version 1
  level 1 c 3 20000
  level 2 a 3 6000
  level 3 b 3 3000

They are all others of the set, those of other teams, too:

  $ mkdir teams
  $ sed -n 1,6p a-over-all.toml > teams/cam.toml
  $ sed -n '7,$p' a-over-all.toml > teams/arm.toml
  $ desk admit teams
  admitted 3
  1 c 20000
  2 b 6000
  3 a 3000

With a jitter of 1000, too, the certificate is the same, since its numbers count from the latest release:

  $ three "jitter = 1000
  > outranks = ['b']" > both.toml
  $ desk admit both.toml
  admitted 3
  1 c 20000
  2 b 6000
  3 a 4000
  $ desk certify both.toml | cmp - over.cert
  $ desk check both.toml over.cert
  best

The fields of a put stand behind the cost, `j=` first:

  $ play() { printf "open 1\nput 1 a 0 7000 7000 3000 $1\ncommit 1\nopen 2\nput 2 b 0 12000 12000 3000\ncommit 2\n" | desk play -; }
  $ play 'over=b'
  draft 1 version 0
  ok
  admitted 1
  draft 2 version 1
  ok
  admitted 2
  version 2
  level 1 b 2 6000
  level 2 a 1 3000
  $ play 'j=1000 over=b'
  draft 1 version 0
  ok
  admitted 1
  draft 2 version 1
  ok
  admitted 2
  version 2
  level 1 b 2 6000
  level 2 a 1 4000
  $ play 'over=b j=1000'
  refused: BadLine 2
  [4]
  $ play 'j=x'
  refused: BadLine 2
  [4]
  $ play 'j=7000 over=a'
  refused: line 2 BadJitter
  [4]
  $ play 'j=6999 over=a'
  refused: line 2 OutranksSelf
  [4]
  $ play 'over=b+b+a'
  refused: line 2 OutranksTwice
  [4]
  $ play 'over=b+c+d+e+f+g+h+i+b'
  refused: line 2 TooManyOutranks
  [4]
  $ play 'over='
  refused: BadLine 2
  [4]
  $ play 'over=b over=c'
  refused: BadLine 2
  [4]
  $ play 'j=1000 over=b m@0:1' | tail -n 2
  level 1 b 2 6000
  level 2 a 1 4000
  $ play 'm@0:1 over=b'
  refused: BadLine 2
  [4]
  $ play 'over=*' | tail -n 2
  level 1 b 2 6000
  level 2 a 1 3000
  $ play 'over=*+b'
  refused: BadLine 2
  [4]
  $ play 'over=**'
  refused: BadLine 2
  [4]
  $ play 'j=7000 over=a m@0:3001'
  refused: line 2 SectionPastCost 1
  [4]
