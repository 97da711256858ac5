What a person is told on standard error: after a refusal a sentence that names the input, the place, the value and what it
has to be, or what the system says; beside an answer notes on what is odd in a set. No answer and no status depends on it.

`said` prints what a command writes to standard error:

  $ said() { desk "$@" 2>&1 > /dev/null; }
  $ document() { printf "$1" | said admit -; }
  $ task() { document "task = [{ $1 }]"; }
  $ more() { task "name = 'a', period = 10000, deadline = 10000, cost = 5000, $1"; }
  $ sections() { more "section = [$1]"; }

Inputs
------

  $ said admit nosuch.toml
  nosuch.toml: can't be opened or read: No such file or directory
  [7]
  $ said admit examples/three-tasks.toml/x
  examples/three-tasks.toml/x: can't be opened or read: Not a directory
  [7]
  $ said admit - < examples
  standard input: can't be opened or read: Is a directory
  [7]
  $ said admit - <&-
  standard input: can't be opened or read: Bad file descriptor
  [7]
  $ said admit ''
  "": can't be opened or read: No such file or directory
  [7]
  $ mkdir teams && ln -s nowhere teams/cam.toml
  $ said admit teams
  teams: can't be opened or read: cam.toml: No such file or directory
  [7]
  $ : > teams/cam.team.toml
  $ said admit teams
  teams: can't be opened or read: no name of a team: cam.team.toml
  [7]
  $ mkdir odd && : > odd/"$(printf 'a\033[31m\nb')".toml
  $ said admit odd
  odd: can't be opened or read: no name of a team: a?[31m?b.toml
  [7]
  $ mkdir none && : > none/node.toml && : > none/.cam.toml
  $ said admit none
  none: can't be opened or read: no file TEAM.toml in this folder
  [7]
  $ said check examples/three-tasks.toml nosuch.cert
  nosuch.cert: can't be opened or read: No such file or directory
  [7]
  $ said check nosuch.toml nosuch.cert
  nosuch.toml: can't be opened or read: No such file or directory
  [7]
  $ head -c 16777217 /dev/zero > long
  $ said admit long
  long: longer than the 16777216 bytes that an input may have
  [4]
  $ said check examples/three-tasks.toml long
  long: longer than the 16777216 bytes that an input may have
  [4]
  $ truncate -s 1073741825 hours
  $ said observe examples/three-tasks.toml hours
  hours: longer than the 1073741824 bytes that a trace may have
  [4]

What a terminal could take for a command is shown as `?`:

  $ said admit "$(printf 'a\033[31m')"
  a?[31m: can't be opened or read: No such file or directory
  [7]

The refusal itself stays on standard output:

  $ printf 'task = [{}]' | desk admit -
  refused: MissingKey 1 0 name
  (on standard error) standard input: task 1: no key name; a task needs name, period, deadline, cost
  [4]

An output that can't be written; not where nobody reads it any more:

  $ desk admit examples/three-tasks.toml > /dev/full
  (on standard error) standard output: can't be written: No space left on device
  [7]
  $ desk admit examples/three-tasks.toml >&-
  (on standard error) standard output: can't be written: Bad file descriptor
  [7]
  $ desk --help > /dev/full
  (on standard error) standard output: can't be written: No space left on device
  [7]
  $ { sleep 0.2; desk releases examples/three-tasks.toml 9000000; echo $? >&2; } 2> errors | true
  $ cat errors
  7

Syntax
------

What the parser says, with the line and the column at which it stopped, and the line itself:

  $ document '[[task]]\nname = "a"\nperiod 10000\n'
  standard input: line 3, column 8: key with no value, expected `=`, in "period 10000"
  [4]
  $ document '[[task]]\nname = "a\n'
  standard input: line 2, column 10: invalid string, in "name = "a"
  [4]
  $ document '[[task]\nname = "a"\n'
  standard input: line 1, column 8: unclosed array table, expected `]]`, in "[[task]"
  [4]
  $ document '# \377'
  standard input: line 1, column 3: invalid UTF-8, in "# ?"
  [4]

Keys
----

  $ document 'tasks = []'
  standard input: unknown key tasks; a set has tasks, each headed by [[task]], and may have prefer in front of them, [node], [[interrupt]] and [[chain]]
  [4]
  $ document '[[section]]\nlocks = ["m"]\nlen = 10\n'
  standard input: unknown key section; a section is headed [[task.section]]
  [4]
  $ more 'prefer = "deadline"'
  standard input: task 1 (a): unknown key prefer; prefer stands in front of the first [[task]]
  [4]
  $ more 'deadlin = 3'
  standard input: task 1 (a): unknown key deadlin; a task has name, weight, period, deadline, cost, section, jitter, outranks
  [4]
  $ sections '{ locks = ["m"], at = 0, length = 10 }'
  standard input: task 1 (a), section 1: unknown key length; a section has locks, at, len
  [4]
  $ task 'name = "a", period = 10000, cost = 5000'
  standard input: task 1 (a): no key deadline; a task needs name, period, deadline, cost
  [4]
  $ sections '{ locks = ["m"], at = 0 }'
  standard input: task 1 (a), section 1: no key len; a section needs locks, len
  [4]

  $ sections '{ locks = ["m"], len = 3000 }, { locks = ["n"], len = 2001 }'
  standard input: task 1 (a): section 2: it ends past the cost: at 3000 and len 2001 make 5001, cost 5000
  [4]
  $ sections '{ locks = ["m"], at = 10, len = 3000 }, { locks = ["n"], len = 10 }, { locks = ["m"], at = 10, len = 10 }'
  standard input: task 1 (a): section 3: it begins before the end of the one before it: at 10, that one ends at 3020
  [4]

A task that stands under a line `[[task]]` has its number:

  $ document '# a set\n\n[[task]]\nname = "a"\nperiod = 10000\ndeadline = 10000\ncost = 5000\n\n[[ task ]]\r\nname = "b"\n'
  standard input: line 9, task 2 (b): no key period; a task needs name, period, deadline, cost
  [4]
  $ document '[[task]]\nname = """\n[[task]]"""\nperiod = 1000\ndeadline = 1000\ncost = 1\n'
  standard input: line 1, task 1 ([[task]]): name: "[[task]]" is no name; a name is 1 to 24 of the letters a to z and A to Z, digits, _ and -, a letter first
  [4]
  $ printf '#%% cam 4\n#ok\n#%% arm 15\n# two\n[[task]]\n' | said admit -
  standard input: arm.toml: line 2, task 1: no key name; a task needs name, period, deadline, cost
  [4]

Kinds
-----

  $ document '[task]\nname = "a"\n'
  standard input: task has to be an array of tables, each headed by [[task]]; it is a single table
  [4]
  $ document 'task = [{}, 3]'
  standard input: task has to be an array of tables, each headed by [[task]]; it is an array with 3
  [4]
  $ task 'name = 3, period = 10000, deadline = 10000, cost = 5000'
  standard input: task 1: name has to be a string, in quotes; it is 3
  [4]
  $ task 'name = "a", period = "10ms", deadline = 10000, cost = 5000'
  standard input: task 1 (a): period has to be a whole number of microseconds from 0, without quotes; it is the string "10ms"
  [4]
  $ task 'name = "a", period = 10000, deadline = 10000.5, cost = 5000'
  standard input: task 1 (a): deadline has to be a whole number of microseconds from 0, without quotes; it is a number with a fraction
  [4]
  $ more 'weight = -1'
  standard input: task 1 (a): weight has to be a whole number from 0; it is -1
  [4]
  $ more 'jitter = true'
  standard input: task 1 (a): jitter has to be a whole number of microseconds from 0, without quotes; it is true
  [4]
  $ more 'section = { locks = ["m"], at = 0, len = 1 }'
  standard input: task 1 (a): section has to be an array of tables, each headed by [[task.section]]; it is a single table
  [4]
  $ more 'outranks = "b"'
  standard input: task 1 (a): outranks has to be an array of strings, as ["a", "b"], or the string "all"; it is the string "b"
  [4]
  $ sections '{ locks = ["m", 2], at = 0, len = 10 }'
  standard input: task 1 (a), section 1: locks has to be an array of strings, as ["a", "b"]; it is an array with 2
  [4]
  $ sections '{ locks = ["m"], at = 12:00:00, len = 10 }'
  standard input: task 1 (a), section 1: at has to be a whole number of microseconds from 0, without quotes; it is a date or time
  [4]

Names
-----

  $ task 'name = "4a", period = 10000, deadline = 10000, cost = 5000'
  standard input: task 1 (4a): name: "4a" is no name; a name is 1 to 24 of the letters a to z and A to Z, digits, _ and -, a letter first
  [4]
  $ more 'outranks = ["b", "c d"]'
  standard input: task 1 (a): outranks: "c d" is no name; a name is 1 to 24 of the letters a to z and A to Z, digits, _ and -, a letter first
  [4]
  $ sections '{ locks = ["m", "a-lock-with-a-name-too-long"], at = 0, len = 10 }'
  standard input: task 1 (a), section 1: locks: "a-lock-with-a-name-too-long" is no name; a name is 1 to 24 of the letters a to z and A to Z, digits, _ and -, a letter first
  [4]

A long text is cut after 60 characters, and has `?` for what isn't shown:

  $ task "name = '$(printf '%0100d' 0)', period = 10000, deadline = 10000, cost = 5000" | cut -c 1-100
  standard input: task 1 (000000000000000000000000000000000000000000000000000000000000..): name: "0000
  $ more '"\\u001b[31m" = 3'
  standard input: task 1 (a): unknown key ?[31m; a task has name, weight, period, deadline, cost, section, jitter, outranks
  [4]

Values
------

  $ more 'weight = 1001'
  standard input: task 1 (a): the weight is above 1000: weight 1001
  [4]
  $ task 'name = "a", period = 10, deadline = 10, cost = 5'
  standard input: task 1 (a): the period is not from 1000 to 10000000 microseconds: period 10
  [4]
  $ task 'name = "a", period = 10000, deadline = 0, cost = 5000'
  standard input: task 1 (a): the deadline is 0
  [4]
  $ task 'name = "a", period = 10000, deadline = 10001, cost = 5000'
  standard input: task 1 (a): the deadline is above the period: deadline 10001, period 10000
  [4]
  $ task 'name = "a", period = 10000, deadline = 10000, cost = 0'
  standard input: task 1 (a): the cost is 0
  [4]
  $ task 'name = "a", period = 10000, deadline = 10000, cost = 10001'
  standard input: task 1 (a): the cost is above the period: cost 10001, period 10000
  [4]
  $ s='{ locks = ["m"], at = 0, len = 1 }'
  $ sections "$s, $s, $s, $s, $s, $s, $s, $s, $s"
  standard input: task 1 (a): more than 8 sections: there are 9
  [4]
  $ sections '{ locks = [], at = 0, len = 10 }'
  standard input: task 1 (a): section 1: no locks
  [4]
  $ sections '{ locks = ["a", "b", "c", "d", "e"], at = 0, len = 10 }'
  standard input: task 1 (a): section 1: more than 4 locks: there are 5
  [4]
  $ sections '{ locks = ["m", "n", "m"], at = 0, len = 10 }'
  standard input: task 1 (a): section 1: a lock twice: m
  [4]
  $ sections '{ locks = ["m"], at = 0, len = 0 }'
  standard input: task 1 (a): section 1: its length is 0
  [4]
  $ sections '{ locks = ["m"], at = 100, len = 50 }, { locks = ["n"], at = 149, len = 10 }'
  standard input: task 1 (a): section 2: it begins before the end of the one before it: at 149, that one ends at 150
  [4]
  $ sections '{ locks = ["m"], at = 4000, len = 1001 }'
  standard input: task 1 (a): section 1: it ends past the cost: at 4000 and len 1001 make 5001, cost 5000
  [4]
  $ more 'jitter = 10000'
  standard input: task 1 (a): the jitter is not below the deadline: jitter 10000, deadline 10000
  [4]
  $ more 'outranks = ["b", "c", "d", "e", "f", "g", "h", "i", "j"]'
  standard input: task 1 (a): outranks: it must stand above more than 8 tasks: there are 9
  [4]
  $ more 'outranks = ["b", "c", "b"]'
  standard input: task 1 (a): outranks: it must stand above a task twice: b
  [4]
  $ more 'outranks = ["b", "a"]'
  standard input: task 1 (a): outranks: it must stand above itself
  [4]
  $ one='period = 10000, deadline = 10000, cost = 1'
  $ document "task = [{ name = 'a', $one }, { name = 'b', $one }, { name = 'a', $one }]"
  standard input: task 3 (a): a task before it has its name: task 1
  [4]
  $ for i in $(seq 1 33); do printf '[[task]]\nname="t%d"\nperiod=1000\ndeadline=1000\ncost=1\n' $i; done | said admit -
  standard input: more than 32 tasks: there are 33
  [4]

Certificates
------------

  $ certificate() { printf "$1" | said check examples/three-tasks.toml -; }
  $ certificate 'desk-certificate 3\nnone 0\nend\n'
  standard input: line 1 has to be desk-certificate 1, 2, 4 or 5; it is "desk-certificate 3"
  [5]
  $ certificate 'desk-certificate 1\r\nnone 0\r\nend\r\n'
  standard input: line 1 has to be desk-certificate 1, 2, 4 or 5; it is "desk-certificate 1?"; it ends with CR and LF, where LF alone is wanted
  [5]
  $ certificate 'desk-certificate 1\nbest 3\nlevel 2 c 20000\n'
  standard input: line 3, "level 2 c 20000": no such line may stand here; after the head come best N, for each level from 1 level K NAME NUMBER and lines fails NAME REASON, then, in version 5, lines chain NAME NUMBER, or none N and lines member NAME REASON, then end
  [5]
  $ certificate 'desk-certificate 1\nnone 0\n'
  standard input: the complete lines stop before one that says end; each line ends with LF, the last, too
  [5]
  $ certificate 'desk-certificate 1\nnone 0\nend\n\n'
  standard input: something follows the line end, which has to be the last
  [5]
  $ certificate 'desk-certificate 1\nnone 0\nend\n'
  standard input: none without members shows nothing
  [5]
  $ said check examples/jitter.toml examples/three-tasks.cert
  examples/three-tasks.cert: its version doesn't serve for this set: best of one with chains needs 5, and nothing else takes it; else one with release of [node] or an interrupt needs 4, and no other takes it; else one with jitter, late of [node] or outranks needs 2
  [5]
  $ certificate 'desk-certificate 1\nbest 0\nend\n'
  standard input: its levels don't name each task of the set once, or a member is no task or named twice
  [5]
  $ sed 's/^fails a .*/fails c 1 11000/' examples/three-tasks.cert | said check examples/three-tasks.toml -
  standard input: level 1: its lines fails have to name tasks that are left and of smaller rank, by rank (a certificate made with --prefer is checked with it)
  [5]
  $ sed '/^fails b/d' examples/three-tasks.cert | said check --prefer weight examples/three-tasks.toml -
  standard input: level 1: b is left and of smaller rank than the level's task, but no line fails says why it can't have the level
  [5]
  $ sed 's/c 20000/c 20001/' examples/three-tasks.cert | said check examples/three-tasks.toml -
  standard input: level 1: its number, 20001, is past the deadline less the jitter, 20000
  [5]
  $ sed 's/c 20000/c 5/' examples/three-tasks.cert | said check examples/three-tasks.toml -
  standard input: level 1: its number, 5, is below what the task may need, or its task has to outrank one above it
  [5]
  $ sed 's/^fails b 1/fails b 2/' examples/three-tasks.cert | said check examples/three-tasks.toml -
  standard input: level 1, fails b: its numbers have to begin with 1, each above the one before and at most the task's demand there, and to end with the first past the deadline less the jitter; after over stands a task above it that it has to outrank
  [5]
  $ certificate 'desk-certificate 1\nnone 1\nmember a 1\nend\n'
  standard input: member a: its numbers have to begin with 1, each above the one before and at most the task's demand there, and to end with the first past the deadline less the jitter; after over stands a task above it that it has to outrank
  [5]
  $ sed '/^fails b/d' examples/three-tasks.cert | said check examples/three-tasks.toml -
  standard input: level 1: b is left and of smaller rank than the level's task, but no line fails says why it can't have the level (a certificate made with --prefer is checked with it)
  [5]
  $ sed 's/44200/44199/' examples/steer.cert | said check examples/steer.toml -
  standard input: chain steer: its number, 44199, is below 44200, the sum of its periods, of what its tasks hand over and of the last one's response, by the numbers of the levels
  [5]
  $ sed 's/plan 9200/plan 9300/' examples/steer.cert | said check examples/steer.toml -
  standard input: chain steer: its number, 44200, is below 44300, the sum of its periods, of what its tasks hand over and of the last one's response, by the numbers of the levels
  [5]
  $ { cat examples/steer.toml; echo 'writes = "deadline"'; } > timed.toml
  $ desk certify timed.toml | sed 's/^chain steer .*/chain steer 69999/' | said check timed.toml -
  standard input: chain steer: its number, 69999, is below 70000, the sum of its periods and of its tasks' deadlines
  (on standard error) note: in the best order a chain misses its limit: desk admit says which
  [5]
  $ { cat examples/steer.toml; echo 'offsets = [0, 0, 0]'; } > clocked.toml
  $ desk certify clocked.toml | sed 's/^chain steer .*/chain steer 30599/' | said check clocked.toml -
  standard input: chain steer: its number, 30599, is below 30600, its longest span from an arrival of its first task, by the numbers of the levels
  [5]
  $ { cat timed.toml; echo 'offsets = [0, 0, 0]'; } > clocked.toml
  $ desk certify clocked.toml | sed 's/^chain steer .*/chain steer 54999/' | said check clocked.toml -
  standard input: chain steer: its number, 54999, is below 55000, its longest span from an arrival of its first task, by its tasks' deadlines
  (on standard error) note: in the best order a chain misses its limit: desk admit says which
  [5]

Release lists
-------------

  $ releases() { printf "$1" | said simulate examples/jitter.toml -; }
  $ releases ''
  standard input: there is no line until N
  [4]
  $ releases '# a list\n0 a\n'
  standard input: line 2, "0 a" has to be until N, in whole microseconds
  [4]
  $ releases 'until 100\n0  a\n'
  standard input: line 2, "0  a" has to be TIME NAME [LATE] [runs N], in whole microseconds; one space stands between words, none before or after them
  [4]
  $ releases 'until 0100\n'
  standard input: line 1, "until 0100" has to be until N, in whole microseconds; a number has no leading zero
  [4]
  $ releases 'until 100\n00 a\n'
  standard input: line 2, "00 a" has to be TIME NAME [LATE] [runs N], in whole microseconds; a number has no leading zero
  [4]
  $ releases 'until 12345678901\n'
  standard input: line 1, "until 12345678901" has to be until N, in whole microseconds; a number has 10 digits at most
  [4]
  $ releases 'until 100\n0 a 5 # late\n'
  standard input: line 2, "0 a 5 # late" has to be TIME NAME [LATE] [runs N], in whole microseconds; a comment has to be a line of its own, which begins with #
  [4]
  $ releases 'until 100\n  # late\n'
  standard input: line 2, "  # late" has to be TIME NAME [LATE] [runs N], in whole microseconds; a comment has to be a line of its own, which begins with #
  [4]
  $ releases 'until 100\n0\ta\n'
  standard input: line 2, "0?a" has to be TIME NAME [LATE] [runs N], in whole microseconds; a tab stands in it, where one space stands between words
  [4]
  $ releases 'until 100\n0 a ran 5\n'
  standard input: line 2, "0 a ran 5" has to be TIME NAME [LATE] [runs N], in whole microseconds
  [4]
  $ releases 'until 100\n\n10 a\n9 b\n'
  standard input: line 4, "9 b" arrives before the one above it
  [4]
  $ releases 'until 100\n0 a\n# three\n1 d\n'
  standard input: line 4, "1 d": the set has no task of that name
  [4]
  $ releases 'until 20000\n0 a\n6999 a\n'
  standard input: line 3, "6999 a" arrives less than the task's period after the one before it: at 6999, that one at 0, period 7000
  [4]
  $ releases 'until 20000\n0 a\n7000 a\n7000 c\n8000 b\n13999 a\n'
  standard input: line 6, "13999 a" arrives less than the task's period after the one before it: at 13999, that one at 7000, period 7000
  [4]
  $ releases 'until 20000\n0 a 1001\n'
  standard input: line 2, "0 a 1001" is later than the task's jitter allows: late 1001, jitter 1000
  [4]
  $ releases 'until 20000\n0 a runs 0\n'
  standard input: line 2, "0 a runs 0" runs for nothing: runs 0, cost 3000
  [4]
  $ releases 'until 20000\n0 a 10 runs 3001\n'
  standard input: line 2, "0 a 10 runs 3001" runs for more than the task's cost: runs 3001, cost 3000
  [4]
  $ releases 'until 60000001\n'
  standard input: until 60000001 is above 60000000 microseconds
  [4]
  $ releases 'until 1000\n0 b\n0 a 1000\n'
  standard input: line 3, "0 a 1000": a job has to become ready before until, 1000
  [4]
  $ (echo 'until 60000000'; for i in $(seq 0 10000); do echo "$((i * 7000)) a"; done) | said simulate examples/jitter.toml - 
  standard input: line 8574, "60004000 a": a job has to become ready before until, 60000000
  [4]
  $ printf '[[task]]\nname="a"\nperiod=1000\ndeadline=1000\ncost=1\n' > fast.toml
  $ said releases fast.toml 60000000
  fast.toml: more than 10000 releases; UNTIL may be 10000000 at most
  [4]
  $ said releases fast.toml 10000001
  fast.toml: more than 10000 releases; UNTIL may be 10000000 at most
  [4]
  $ desk releases fast.toml 10000000 | wc -l
  10001
  $ said releases fast.toml 60000000 --seed 1
  fast.toml: more than 10000 releases
  [4]
  $ sed 's/"a"/"b"/; s/period=1000/period=9000/; $a jitter=700' fast.toml > slow.toml
  $ cat slow.toml >> fast.toml
  $ said releases fast.toml 60000000
  fast.toml: more than 10000 releases; UNTIL may be 9000000 at most
  [4]
  $ desk releases fast.toml 9000001 | head -n 1
  refused: TooMany
  $ desk releases fast.toml 9000000 | wc -l
  10001

A byte order mark, and CR in front of LF:

  $ releases '\357\273\277until 100\n'
  standard input: line 1, "?until 100" has to be until N, in whole microseconds; it begins with a byte order mark, which only a set may have
  [4]
  $ releases 'until 100\r\n'
  standard input: line 1, "until 100?" has to be until N, in whole microseconds; it ends with CR and LF, where LF alone is wanted
  [4]
  $ certificate '\357\273\277desk-certificate 1\r\nbest 0\r\n'
  standard input: line 1 has to be desk-certificate 1, 2, 4 or 5; it is "?desk-certificate 1?"; it begins with a byte order mark, which only a set may have; it ends with CR and LF, where LF alone is wanted
  [5]
  $ printf '\357\273\277thread lo 1\n' | said judge examples/shared-lock.toml -
  standard input: line 1, "?thread lo 1" has to be thread NAME NUMBER or mutex NAME NUMBER, with a number from 1 to 1000000; it begins with a byte order mark, which only a set may have
  [4]
  $ printf 'open 1\r\n' | said play -
  standard input: line 1, "open 1?" has to be open TEAM, with TEAM from 1 to 8; it ends with CR and LF, where LF alone is wanted
  [4]
  $ printf '#%% cam 4\r\n#ok\n' | said admit -
  standard input: part 1: no line `#% TEAM COUNT` that so many bytes follow; it ends with CR and LF, where LF alone is wanted
  [4]
  $ printf '\357\273\277[[task]]\r\nname = "a"\r\n' | said admit -
  standard input: line 1, task 1 (a): no key period; a task needs name, period, deadline, cost
  [4]

Settings
--------

  $ settings() { printf "$1" | said judge examples/shared-lock.toml -; }
  $ settings 'thread lo 1\nthreat mid 2\n'
  standard input: line 2, "threat mid 2" has to be thread NAME NUMBER or mutex NAME NUMBER, with a number from 1 to 1000000
  [4]
  $ settings 'thread lo 01\n'
  standard input: line 1, "thread lo 01" has to be thread NAME NUMBER or mutex NAME NUMBER, with a number from 1 to 1000000; a number has no leading zero
  [4]
  $ settings 'thread low 1\n'
  standard input: line 1, "thread low 1": the set has no task of that name
  [4]
  $ settings 'mutex n 1\n'
  standard input: line 1, "mutex n 1": no task of the set uses that lock
  [4]
  $ settings 'thread lo 1\nthread lo 2\n'
  standard input: line 2, "thread lo 2": a thread line before it has that name
  [4]
  $ settings 'mutex m 1\nmutex m 2\n'
  standard input: line 2, "mutex m 2": a mutex line before it has that name
  [4]
  $ settings 'thread lo 1\nthread mid 1\n'
  standard input: line 2, "thread mid 1": a thread line before it has that number
  [4]
  $ settings 'thread lo 1\nthread mid 2\n'
  standard input: no line thread hi NUMBER
  [4]
  $ settings 'thread lo 1\nthread mid 2\nthread hi 3\nmutex m 2\n'
  standard input: line 4, "mutex m 2" isn't at 3, the number of the highest thread that uses it; desk judge alone takes a higher one
  [4]
  $ printf 'thread lo 9\nthread mid 5\nthread hi 2\nmutex m 9\n' | said judge --lower-is-higher examples/shared-lock.toml -
  standard input: line 4, "mutex m 9" isn't at 2, the number of the highest thread that uses it; desk judge alone takes a higher one
  [4]
  $ sed 's/"m"/"m", "n"/' examples/shared-lock.toml > two-locks.toml
  $ printf 'thread lo 1\nthread mid 2\nthread hi 3\nmutex m 3\n' | said judge two-locks.toml -
  standard input: no line mutex n NUMBER; there is one for each lock or for none
  [4]

Scripts
-------

  $ script() { printf "$1" | said play -; }
  $ script 'opn 1\n'
  standard input: line 1, "opn 1" has to be of open, put, remove, found, test, commit or abandon
  [4]
  $ script 'open 9\n'
  standard input: line 1, "open 9" has to be open TEAM, with TEAM from 1 to 8
  [4]
  $ script 'open 1\nput 2 a 0 1000 1000 1\n'
  standard input: line 2, "put 2 a 0 1000 1000 1" has to be put DRAFT NAME WEIGHT PERIOD DEADLINE COST, then j=JITTER, over=NAME+NAME or over=*, node=JOB+LOCK+RELEASE+LATE, irq=PERIOD:COST+PERIOD:COST and LOCK+LOCK@AT:LEN where there are such; DRAFT is the number of an open line above it
  [4]
  $ script 'open 1\nremove 1\n'
  standard input: line 2, "remove 1" has to be remove DRAFT NAME; DRAFT is the number of an open line above it
  [4]
  $ script 'open 1\ncommit 1 \n'
  standard input: line 2, "commit 1 " has to be commit DRAFT; DRAFT is the number of an open line above it; one space stands between words, none before or after them
  [4]
  $ script '# one\nopen 1\nput 1 a 0 999 999 1\n'
  standard input: line 3, "put 1 a 0 999 999 1": the period is not from 1000 to 10000000 microseconds: period 999
  [4]
  $ script 'open 1\nput 1 a 0 1000 1000 100 m@0:60 n@50:10\n'
  standard input: line 2, "put 1 a 0 1000 1000 100 m@0:60 n@50:10": section 2: it begins before the end of the one before it: at 50, that one ends at 60, in "n@50:10"
  [4]
  $ script 'open 1\nput 1 a 0 1000 1000 100 m@60:41\n'
  standard input: line 2, "put 1 a 0 1000 1000 100 m@60:41": section 1: it ends past the cost: at 60 and len 41 make 101, cost 100, in "m@60:41"
  [4]
  $ script 'open 1\nput 1 a 0 1000 1000 100 j=1000\n'
  standard input: line 2, "put 1 a 0 1000 1000 100 j=1000": the jitter is not below the deadline: jitter 1000, deadline 1000
  [4]
  $ script 'open 1\nput 1 a 0 1000 1000 100 over=b+a\n'
  standard input: line 2, "put 1 a 0 1000 1000 100 over=b+a": over: it must stand above itself
  [4]
  $ script 'open 1\nput 1 a 0 1000 1000 100 node=20+2+1001+15\n'
  standard input: line 2, "put 1 a 0 1000 1000 100 node=20+2+1001+15": node: job, lock and late are at most 10000000 microseconds, release at most 1000
  [4]
  $ script 'open 1\nput 1 a 0 1000 1000 100 irq=4000:17+200:201\n'
  standard input: line 2, "put 1 a 0 1000 1000 100 irq=4000:17+200:201": irq: at most 8, each with a period from 100 to 10000000 microseconds and a cost of at most its period
  [4]
  $ printf 'open 9\n' | said rush - 1
  standard input: line 1, "open 9" has to be open TEAM, with TEAM from 1 to 8
  [4]

Tasks and times that are asked for
----------------------------------

  $ said explain examples/shared-lock.toml --task nobody
  examples/shared-lock.toml: no task is called "nobody": the set has lo, mid, hi
  [4]
  $ desk settings examples/shared-lock.toml > settings
  $ for command in explain limits worst; do
  >   said $command examples/shared-lock.toml --at settings --task lo,hi
  >   said $command examples/shared-lock.toml --task=
  > done | sort | uniq -c | sed 's/^ *//'
  3 examples/shared-lock.toml: no task is called "": the set has lo, mid, hi
  3 examples/shared-lock.toml: no task is called "lo,hi": the set has lo, mid, hi
  $ said explain examples/robot.toml --prefer deadline --task Motor
  examples/robot.toml: no task is called "Motor": the set has upload, diagnostics, battery, planner, camera, lidar, balance, imu and 1 more
  [4]
  $ said limits examples/empty-set.toml --task a
  examples/empty-set.toml: no task is called "a": the set has none
  [4]
  $ view() { desk releases examples/shared-lock.toml 100000 | said draw examples/shared-lock.toml - "$@"; }
  $ view --tasks hi,low,lo,high
  examples/shared-lock.toml: no task is called "low": the set has lo, mid, hi
  [4]
  $ view --tasks hi,
  examples/shared-lock.toml: no task is called "": the set has lo, mid, hi
  [4]
  $ view --from 200000
  standard input: its run ends at 100000: nothing of it lies from 200000 on
  [4]
  $ view --from 5000 --to 4000
  standard input: its run ends at 100000: nothing of it lies from 5000 to 4000; --to has to be after --from
  [4]
  $ { desk settings examples/shared-lock.toml; desk releases examples/shared-lock.toml 100000; } > ordered
  $ said draw examples/shared-lock.toml ordered --from 200000
  ordered: nothing of its run lies from 200000 on
  [4]

Beside a new set: what belongs to which

  $ both() { said draw examples/shared-lock.toml examples/shared-lock.releases --beside "$@"; }
  $ both /dev/zero
  examples/shared-lock.releases: with the new set longer than the 16777216 bytes that an input may have
  [4]
  $ sed 's/cost = 2000$/cost = 15000/' examples/shared-lock.toml > full.toml
  $ both full.toml
  note: the costs over the periods come to more than 1: no order can pass
  note: no order of the new set passes, so there is no picture: desk explain says why
  [3]
  $ said draw full.toml examples/shared-lock.releases --beside full.toml
  note: the costs over the periods come to more than 1: no order can pass
  note: no order of the first set passes, so there is no picture: desk explain says why
  [3]
  $ { cat examples/shared-lock.toml; printf '[[interrupt]]\nperiod = 9000\ncost = 9\n'; } > timed.toml
  $ both timed.toml
  note: what timers and interrupts take is in the bounds, and not in the run
  $ said draw timed.toml examples/shared-lock.releases --beside timed.toml
  note: what timers and interrupts take is in the bounds, and not in the run

Notes
-----

  $ cat > robot.toml <<END
  > [[task]]
  > name = "motion"
  > period = 10000
  > deadline = 10000
  > cost = 1000
  > section = [{ locks = ["state", "can"], at = 0, len = 100 }]
  > [[task]]
  > name = "diagnostics"
  > period = 100000
  > deadline = 100000
  > cost = 1000
  > section = [{ locks = ["sate", "can"], at = 0, len = 10 }, { locks = ["log", "sate"], at = 10, len = 10 }]
  > END
  $ desk admit robot.toml
  admitted 2
  1 diagnostics 2000
  2 motion 1010
  (on standard error) note: lock sate has one user, diagnostics
  (on standard error) note: lock log has one user, diagnostics
  (on standard error) note: lock state has one user, motion

A name in `outranks` that no task has, a set without a task, and more costs than time, exactly: here the load is rounded up:

  $ more 'outranks = ["watchdog", "b"]'
  note: a outranks watchdog, which is no task of the set: that binds nothing
  note: a outranks b, which is no task of the set: that binds nothing
  $ desk admit examples/watchdog.toml > admitted
  $ said admit examples/empty-set.toml
  note: the set has no task
  $ desk diff examples/empty-set.toml examples/empty-set.toml
  admitted 0
  was admitted 0
  $ thirds() { for task in "a $1" 'b 3333333' 'c 3333333'; do
  >   set -- $task; printf '[[task]]\nname="%s"\nperiod=9999999\ndeadline=9999999\ncost=%d\n' $1 $2; done; }
  $ thirds 3333333 | desk explain - --prefer deadline | grep -e admitted -e load
  admitted 3
  load 1000000
  $ thirds 3333333 | said admit - --prefer deadline
  $ thirds 3333334 | said explain - --prefer deadline
  note: the costs over the periods come to more than 1: no order can pass
  [3]

Timers and interrupts ask for time, too, though no cost has theirs; a run doesn't have them:

  $ asked() { printf '[node]\njob = 100\nrelease = %d\n[[interrupt]]\nperiod = 1000\ncost = %d\n' $1 $2
  >   printf '[[task]]\nname="a"\nperiod=1000\ndeadline=1000\ncost=%d\n' $3; }
  $ asked 100 200 700 | said admit -
  $ asked 100 200 701 | said admit -
  note: costs, timers and interrupts over the periods come to more than 1: no order can pass
  note: a can't be met in any order: desk explain says why
  [3]
  $ asked 100 201 700 | said limits -
  note: costs, timers and interrupts over the periods come to more than 1: no order can pass
  [3]
  $ asked 0 200 600 > timed.toml
  $ printf 'until 1000\n0 a\n' | desk simulate timed.toml - --tasks
  task a 1 700 900
  (on standard error) note: what timers and interrupts take is in the bounds, and not in the run
  $ printf 'thread a 1\nuntil 1000\n0 a\n' | said draw timed.toml -
  note: what timers and interrupts take is in the bounds, and not in the run
  $ asked 0 0 600 | sed 1,6d > plain.toml && printf 'until 1000\n0 a\n' | said draw plain.toml -

The notes of `diff` are on the new set:

  $ said diff examples/three-tasks.toml robot.toml
  note: lock sate has one user, diagnostics
  note: lock log has one user, diagnostics
  note: lock state has one user, motion
  $ said diff robot.toml examples/three-tasks.toml

A trace that doesn't have a task's jobs, and settings to keep of a thread that no task is:

  $ printf '0 1000 hi\njob hi 0 1000\n' | said observe examples/shared-lock.toml -
  note: the trace has no job of lo, mid
  [3]
  $ printf 'job hi 5 6\njob hi 4 6\n' | said observe examples/shared-lock.toml -
  standard input: line 2, "job hi 4 6" arrives before the job above it: they stand by arrival
  [4]
  $ printf '400 600 hi\njob hi 0 500\njob hi 500 900\n' | said observe examples/shared-lock.toml -
  standard input: line 1, "400 600 hi" lies in no job of its task, between its arrival and its finish; a slice ends with its job
  [4]
  $ said observe examples/shared-lock.toml examples/shared-lock.trace
  [3]
  $ printf 'thread mid 7\nthread him 9\nthread lo 4\n' | said settings examples/shared-lock.toml --keep -
  note: thread him is no task of the set: it is left out

Priorities past the highest that Linux has:

  $ said settings examples/shared-lock.toml --base 97
  $ said settings examples/shared-lock.toml --base 98
  note: the highest thread is above 99, the most that Linux has for SCHED_FIFO
  $ said settings examples/empty-set.toml --base 101
  note: the set has no task

Beside a no, the conflict within the tasks that are printed; and that there is no run:

  $ desk admit examples/robot.toml
  infeasible motor
  (on standard error) note: motor can't be met in any order: desk explain says why
  [3]
  $ printf '\n[[task]]\nname="d"\nperiod=50000\ndeadline=1000\ncost=1001\n' > late
  $ cat examples/three-tasks-too-tight.toml | said settings - --prefer deadline
  note: c, b, a can't be met together: desk explain says why
  [3]
  $ cat examples/three-tasks-too-tight.toml late | desk settings - --prefer deadline
  infeasible c b a d
  (on standard error) note: of these d can't be met in any order: desk explain says why
  [3]
  $ sed 's/"d"/"B"/' late | cat examples/three-tasks-too-tight.toml - | desk admit -
  infeasible B a b c
  (on standard error) note: of these a, b, c can't be met together: desk explain says why
  [3]
  $ desk releases examples/robot.toml 1000 | desk draw examples/robot.toml - > run.svg
  (on standard error) note: no order passes, so there is no run: desk explain says why
  [3]
  $ cat run.svg
  infeasible motor
  $ said limits examples/robot.toml --prefer deadline
  [3]

An infeasible set has its notes, and every command that answers on a set; where standard error is closed or full, the
answer is the same:

  $ said certify robot.toml | wc -l
  3
  $ said releases robot.toml 10 | wc -l
  3
  $ desk admit robot.toml 2> /dev/full
  admitted 2
  1 diagnostics 2000
  2 motion 1010
  $ desk admit robot.toml 2>&-
  admitted 2
  1 diagnostics 2000
  2 motion 1010
  $ printf 'task = [{}]' | desk admit - 2> /dev/full
  refused: MissingKey 1 0 name
  [4]
