Inputs and outputs of every command: a path, or `-` for standard input. A file that can't be opened and a read that
fails are ReadFailed; a write that fails prints nothing. Both end with status 7.

  $ set=examples/three-tasks.toml
  $ cert=examples/three-tasks.cert
  $ node=examples/blocked-out-repaired.toml
  $ list=examples/holder-runs-on.releases

A file that isn't there
-----------------------

  $ desk admit missing
  refused: ReadFailed
  [7]
  $ desk certify missing
  refused: ReadFailed
  [7]
  $ desk check missing $cert
  refused: ReadFailed
  [7]
  $ desk check $set missing
  refused: ReadFailed
  [7]
  $ desk simulate missing $list
  refused: ReadFailed
  [7]
  $ desk simulate $node missing
  refused: ReadFailed
  [7]
  $ desk admit $set/missing
  refused: ReadFailed
  [7]
  $ desk admit ''
  refused: ReadFailed
  [7]

A folder with a file `.toml`, in any letters, that isn't called TEAM.toml
-------------------------------------------------------------------------

  $ mkdir letters && cp $set letters/arm.toml && cp $set letters/cam.TOML && desk admit letters
  refused: ReadFailed
  [7]
  $ rm letters/cam.TOML && cp $set letters/.arm.TOML && desk admit letters | head -n 1
  admitted 3
  $ mv letters/arm.toml letters/node.Toml && desk admit letters
  refused: ReadFailed
  [7]
  $ mkdir folder && : > folder/-.toml

  $ desk admit folder
  refused: ReadFailed
  [7]
  $ desk certify folder
  refused: ReadFailed
  [7]
  $ desk check folder $cert
  refused: ReadFailed
  [7]
  $ desk check $set folder
  refused: ReadFailed
  [7]
  $ desk simulate folder $list
  refused: ReadFailed
  [7]
  $ desk simulate $node folder
  refused: ReadFailed
  [7]
  $ desk admit - < folder
  refused: ReadFailed
  [7]

An empty file: an empty set, a truncated certificate, a release list without `until`
--------------------------------------------------------------------------------------

  $ : > empty
  $ desk admit empty
  admitted 0
  $ desk certify empty
  desk-certificate 1
  best 0
  end
  $ desk check empty empty
  refused: Truncated
  [5]
  $ desk check empty $cert
  refused: WrongTasks 0
  [5]
  $ desk simulate empty empty
  refused: BadLine 1
  [4]
  $ desk simulate empty $list
  refused: UnknownTask 1
  [4]
  $ desk admit /dev/null
  admitted 0

Standard input
--------------

  $ desk admit - < $node
  admitted 2
  1 lo 14000
  2 hi 4500
  $ desk < $node
  admitted 2
  1 lo 14000
  2 hi 4500
  $ desk certify - < $node
  desk-certificate 1
  best 2
  level 1 lo 14000
  fails hi 1 12000
  level 2 hi 4500
  end
  $ desk check - $cert < $set
  best
  $ desk check $set - < $cert
  best
  $ desk certify $set | desk check $set -
  best
  $ desk simulate - $list < $node | tail -n 1
  job hi 1001 5500
  $ desk simulate $node - < $list | tail -n 1
  job hi 1001 5500
  $ { sleep 0.1; head -n 5 $set; sleep 0.1; tail -n +6 $set; } | desk admit - | head -n 1
  admitted 3

Standard input that is empty, and one that is closed; a command that doesn't read it doesn't mind:

  $ desk < /dev/null
  admitted 0
  $ desk <&-
  refused: ReadFailed
  [7]
  $ desk admit - <&-
  refused: ReadFailed
  [7]
  $ desk certify - <&-
  refused: ReadFailed
  [7]
  $ desk check - $cert <&-
  refused: ReadFailed
  [7]
  $ desk check $set - <&-
  refused: ReadFailed
  [7]
  $ desk simulate - $list <&-
  refused: ReadFailed
  [7]
  $ desk simulate $node - <&-
  refused: ReadFailed
  [7]
  $ desk admit $node <&-
  admitted 2
  1 lo 14000
  2 hi 4500
  $ desk check $set $cert <&-
  best

Both inputs from standard input are wrong words (words.t). A file of the name `-` has a path, and so has one with a
leading dash, or it stands after `--`:

  $ cp $node ./-
  $ cp $node ./-set.toml
  $ cp $list ./-list
  $ desk admit ./- | head -n 1
  admitted 2
  $ desk admit -- - < /dev/null
  admitted 0
  $ desk admit ./-set.toml | head -n 1
  admitted 2
  $ desk admit -- -set.toml
  admitted 2
  1 lo 14000
  2 hi 4500
  $ desk certify -- -set.toml | desk check -- -set.toml -
  best
  $ desk simulate -- -set.toml -list | tail -n 1
  job hi 1001 5500
  $ desk admit -set.toml 2> errors
  [2]
  $ test -s errors

A name with spaces, and one that no shell would take for a file:

  $ cp $node 'a set; of *'
  $ desk admit 'a set; of *' | head -n 1
  admitted 2

A full disk
-----------

  $ desk admit $set > /dev/full
  (on standard error) standard output: can't be written: No space left on device
  [7]
  $ desk < $set > /dev/full
  [7]
  $ desk certify $set > /dev/full
  [7]
  $ desk check $set $cert > /dev/full
  [7]
  $ desk simulate $node $list > /dev/full
  [7]

Also where the status would be another one:

  $ desk admit examples/blocked-out.toml > /dev/full
  [7]
  $ desk certify examples/blocked-out.toml > /dev/full
  [7]
  $ desk simulate examples/blocked-out.toml $list > /dev/full
  [7]
  $ echo 'x = 1' | desk admit - > /dev/full
  (on standard error) standard input: unknown key x; a set has tasks, each headed by [[task]], and may have prefer in front of them, [node], [[interrupt]] and [[chain]]
  [7]
  $ desk check empty $cert > /dev/full
  (on standard error) examples/three-tasks.cert: its levels don't name each task of the set once, or a member is no task or named twice
  [7]
  $ desk admit missing > /dev/full
  (on standard error) missing: can't be opened or read: No such file or directory
  [7]

A closed output
---------------

  $ desk admit $set >&-
  [7]
  $ desk certify $set >&-
  [7]
  $ desk check $set $cert >&-
  [7]
  $ desk simulate $node $list >&-
  [7]
  $ desk admit missing >&-
  (on standard error) missing: can't be opened or read: No such file or directory
  [7]
  $ desk admit $set <&- >&-
  [7]
  $ desk admit - <&- >&-
  (on standard error) standard input: can't be opened or read: Bad file descriptor
  [7]

Standard error isn't needed where the words are right:

  $ desk admit $node 2>&-
  admitted 2
  1 lo 14000
  2 hi 4500

16,777,216 bytes, and one more
------------------------------

  $ head -c 16777216 /dev/zero | tr '\0' '#' > longest
  $ { cat longest; printf '#'; } > longer
  $ desk admit longest
  admitted 0
  $ desk admit longer
  refused: InputTooLong
  [4]
  $ desk admit - < longest
  admitted 0
  $ desk admit - < longer
  refused: InputTooLong
  [4]
  $ desk certify longest
  desk-certificate 1
  best 0
  end
  $ desk certify longer
  refused: InputTooLong
  [4]
  $ desk check $set longest
  refused: Truncated
  [5]
  $ desk check $set longer
  refused: InputTooLong
  [4]
  $ desk check longer $cert
  refused: InputTooLong
  [4]
  $ desk simulate $node longest
  refused: BadLine 2
  [4]
  $ desk simulate $node longer
  refused: InputTooLong
  [4]

A trace of some hours has up to 1,073,741,824:

  $ desk observe $node longer --jobless
  task lo 0 0 10000 - 50000 - 14000
  task hi 0 0 2000 - 10000 - 4500
  $ truncate -s 1073741825 hours
  $ desk observe $node hours
  refused: InputTooLong
  [4]
  $ desk observe $node - < hours
  refused: InputTooLong
  [4]

An input without end ends there, too:

  $ desk admit /dev/zero
  refused: InputTooLong
  [4]

Which refusal comes first
-------------------------

All inputs are opened, then all are read, then all are parsed, the set first each time:

  $ echo 'x = 1' > faulty
  $ desk check faulty missing
  refused: ReadFailed
  [7]
  $ desk check longer missing
  refused: ReadFailed
  [7]
  $ desk check longer folder
  refused: ReadFailed
  [7]
  $ desk check folder longer
  refused: ReadFailed
  [7]
  $ desk check faulty longer
  refused: InputTooLong
  [4]
  $ desk check faulty folder
  refused: ReadFailed
  [7]
  $ desk check faulty empty
  refused: UnknownKey 0 0
  [4]
  $ desk simulate faulty missing
  refused: ReadFailed
  [7]
  $ desk simulate longer folder
  refused: ReadFailed
  [7]
  $ desk simulate faulty longer
  refused: InputTooLong
  [4]
  $ desk simulate faulty empty
  refused: UnknownKey 0 0
  [4]

Want of memory
--------------

With 12 MB for the whole process, an input of 16 MB doesn't fit:

  $ (ulimit -v 12000; desk admit $node)
  admitted 2
  1 lo 14000
  2 hi 4500
  $ (ulimit -v 12000; desk admit longest)
  refused: OutOfMemory
  [6]
  $ (ulimit -v 12000; desk certify longest)
  refused: OutOfMemory
  [6]
  $ (ulimit -v 12000; desk check $set longest)
  refused: OutOfMemory
  [6]
  $ (ulimit -v 12000; desk simulate $node longest)
  refused: OutOfMemory
  [6]
