Task sets in TOML, as every command reads them. The first refusal of the order in docs/FORMATS.md is the answer.

`document` is a document, `task` a task with its keys, `more` a good task with more keys, `sections` one with sections:

  $ document() { printf "$1" | desk admit -; }
  $ task() { document "task = [{ $1 }]"; }
  $ more() { task "name = 'a', period = 10000, deadline = 10000, cost = 5000, $1"; }
  $ sections() { more "section = [$1]"; }

What is accepted
----------------

No text, no task, a comment, a byte order mark, line ends of two bytes:

  $ document ''
  admitted 0
  $ document 'task = []'
  admitted 0
  $ document '# no task'
  admitted 0
  $ document '\357\273\277task = []'
  admitted 0
  $ document 'task = []\r\n'
  admitted 0

A task without sections, with an empty list of them, and with weights from 0 (`-0` is 0) to 1,000:

  $ task "name = 'a', period = 10000, deadline = 10000, cost = 5000"
  admitted 1
  1 a 5000
  $ sections ''
  admitted 1
  1 a 5000
  $ more 'weight = -0'
  admitted 1
  1 a 5000
  $ more 'weight = 1000'
  admitted 1
  1 a 5000

Numbers in any spelling that TOML has, and tables in any spelling:

  $ task "name = 'a', period = 10_000, deadline = 0x2710, cost = +5_000"
  admitted 1
  1 a 5000
  $ desk admit - << END
  > [[task]]
  > name = "a"
  > period = 10000
  > deadline = 10000
  > cost = 5000
  > [[task.section]]
  > locks = ["m"]
  > at = 0
  > len = 1
  > END
  admitted 1
  1 a 5000
  (on standard error) note: lock m has one user, a

  $ document 'task = [{\n  name = "a", period = 10000,\n  deadline = 10000, cost = 5000,\n}]'
  admitted 1
  1 a 5000

Periods from 1,000 to 10,000,000; deadlines and costs from 1 to the period; a cost past the deadline is no fault:

  $ task "name = 'a', period = 1000, deadline = 1000, cost = 1000"
  admitted 1
  1 a 1000
  $ task "name = 'a', period = 10000000, deadline = 10000000, cost = 1"
  admitted 1
  1 a 1
  $ task "name = 'a', period = 10000, deadline = 1, cost = 1"
  admitted 1
  1 a 1
  $ task "name = 'a', period = 10000, deadline = 1, cost = 10000"
  infeasible a
  [3]

A section may end at the cost, and begin at the end of the one before it. 8 sections, 4 locks:

  $ sections "{ locks = ['m'], at = 1000, len = 4000 }"
  admitted 1
  1 a 5000
  (on standard error) note: lock m has one user, a
  $ sections "{ locks = ['m'], at = 0, len = 500 }, { locks = ['m'], at = 500, len = 500 }"
  admitted 1
  1 a 5000
  (on standard error) note: lock m has one user, a
  $ sections "$(for n in 0 1 2 3 4 5 6 7; do echo "{ locks = ['m'], at = $n, len = 1 },"; done)"
  admitted 1
  1 a 5000
  (on standard error) note: lock m has one user, a
  $ sections "{ locks = ['k', 'l', 'm', 'n'], at = 0, len = 1 }"
  admitted 1
  1 a 5000
  (on standard error) note: lock k has one user, a
  (on standard error) note: lock l has one user, a
  (on standard error) note: lock m has one user, a
  (on standard error) note: lock n has one user, a

A name has 1 to 24 bytes and begins with a letter:

  $ task "name = 'Abcdefghij_lmnopqrs-uv89', period = 10000, deadline = 10000, cost = 5000"
  admitted 1
  1 Abcdefghij_lmnopqrs-uv89 5000

Syntax: no TOML
---------------

  $ document 'name = '
  refused: Syntax
  [4]
  $ document '\377'
  refused: Syntax
  [4]
  $ document '# \377'
  refused: Syntax
  [4]
  $ document '\000'
  refused: Syntax
  [4]

An integer past 64 bits, a key that stands twice:

  $ document 'task = 99999999999999999999'
  refused: Syntax
  [4]
  $ more 'weight = 1, weight = 1'
  refused: Syntax
  [4]

Nested more than 80 deep:

  $ deep() { printf '[%.0s' $(seq $1); printf ']%.0s' $(seq $1); }
  $ document "x = $(deep 80)"
  refused: UnknownKey 0 0
  [4]
  $ document "x = $(deep 81)"
  refused: Syntax
  [4]

A byte 00 or FF at any place:

  $ for n in $(seq 0 96); do
  >   for byte in '\000' '\377'; do
  >     { head -c $n examples/fills-its-period.toml; printf $byte; tail -c +$((n + 2)) examples/fills-its-period.toml
  >     } | desk admit - 2> told
  >   done
  > done | sort -u
  refused: Syntax

Each proper prefix of a set is a set or is refused:

  $ for n in $(seq 0 380); do
  >   head -c $n examples/blocked-out.toml | desk admit - 2> told | head -n 1 | cut -d ' ' -f 1
  > done | sort -u
  admitted
  infeasible
  refused:

UnknownKey: a key that the format hasn't
----------------------------------------

  $ document 'x = 1'
  refused: UnknownKey 0 0
  [4]
  $ document 'task = []\nx = 1'
  refused: UnknownKey 0 0
  [4]
  $ more 'offset = 1'
  refused: UnknownKey 1 0
  [4]
  $ sections "{ locks = ['m'], at = 0, len = 1, x = 1 }"
  refused: UnknownKey 1 1
  [4]

MissingKey: a needed key isn't there
------------------------------------

  $ task 'period = 10000, deadline = 10000, cost = 5000'
  refused: MissingKey 1 0 name
  [4]
  $ task "name = 'a', deadline = 10000, cost = 5000"
  refused: MissingKey 1 0 period
  [4]
  $ task "name = 'a', period = 10000, cost = 5000"
  refused: MissingKey 1 0 deadline
  [4]
  $ task "name = 'a', period = 10000, deadline = 10000"
  refused: MissingKey 1 0 cost
  [4]
  $ sections '{ at = 0, len = 1 }'
  refused: MissingKey 1 1 locks
  [4]
  $ sections "{ locks = ['m'], at = 0 }"
  refused: MissingKey 1 1 len
  [4]

BadPreference: a word that is no preference
-------------------------------------------

  $ document 'prefer = "deadlines"'
  refused: BadPreference
  [4]
  $ document 'prefer = ""\ntask = [{}]'
  refused: BadPreference
  [4]
  $ document 'prefer = "weight"\ntask = [{}]'
  refused: MissingKey 1 0 name
  [4]

WrongKind: a value of another kind
----------------------------------

  $ document 'task = 1'
  refused: WrongKind 0 0 task
  [4]
  $ document 'task = [1]'
  refused: WrongKind 0 0 task
  [4]
  $ document 'prefer = 1'
  refused: WrongKind 0 0 prefer
  [4]
  $ document 'prefer = ["deadline"]\ntask = 1'
  refused: WrongKind 0 0 task
  [4]
  $ task 'name = 1, period = 10000, deadline = 10000, cost = 5000'
  refused: WrongKind 1 0 name
  [4]
  $ more "weight = 'x'"
  refused: WrongKind 1 0 weight
  [4]
  $ task "name = 'a', period = -1, deadline = 10000, cost = 5000"
  refused: WrongKind 1 0 period
  [4]
  $ task "name = 'a', period = 10000, deadline = 1.5, cost = 5000"
  refused: WrongKind 1 0 deadline
  [4]
  $ task "name = 'a', period = 10000, deadline = 10000, cost = '5'"
  refused: WrongKind 1 0 cost
  [4]
  $ more 'section = 1'
  refused: WrongKind 1 0 section
  [4]
  $ sections 1
  refused: WrongKind 1 0 section
  [4]
  $ sections "{ locks = 'm', at = 0, len = 1 }"
  refused: WrongKind 1 1 locks
  [4]
  $ sections "{ locks = ['m', 1], at = 0, len = 1 }"
  refused: WrongKind 1 1 locks
  [4]
  $ sections "{ locks = ['m'], at = -1, len = 1 }"
  refused: WrongKind 1 1 at
  [4]
  $ sections "{ locks = ['m'], at = 0, len = 1 }, { locks = ['m'], at = 1, len = 'x' }"
  refused: WrongKind 1 2 len
  [4]

BadName: no name
----------------

  $ task "name = '9x', period = 10000, deadline = 10000, cost = 5000"
  refused: BadName 1 0
  [4]
  $ task "name = '', period = 10000, deadline = 10000, cost = 5000"
  refused: BadName 1 0
  [4]
  $ task "name = 'Abcdefghij_lmnopqrs-uv890', period = 10000, deadline = 10000, cost = 5000"
  refused: BadName 1 0
  [4]
  $ task "name = '\303\244', period = 10000, deadline = 10000, cost = 5000"
  refused: BadName 1 0
  [4]
  $ sections "{ locks = ['m'], at = 0, len = 1 }, { locks = ['m', '_'], at = 1, len = 1 }"
  refused: BadName 1 2
  [4]

Limits of a task
----------------

  $ more 'weight = 1001'
  refused: BadWeight 1
  [4]
  $ task "name = 'a', period = 999, deadline = 999, cost = 1"
  refused: BadPeriod 1
  [4]
  $ task "name = 'a', period = 10000001, deadline = 10000, cost = 5000"
  refused: BadPeriod 1
  [4]
  $ task "name = 'a', period = 10000, deadline = 0, cost = 1"
  refused: DeadlineZero 1
  [4]
  $ task "name = 'a', period = 10000, deadline = 10001, cost = 1"
  refused: DeadlinePastPeriod 1
  [4]
  $ task "name = 'a', period = 10000, deadline = 10000, cost = 0"
  refused: CostZero 1
  [4]
  $ task "name = 'a', period = 10000, deadline = 10000, cost = 10001"
  refused: CostPastPeriod 1
  [4]
  $ sections "$(for n in 0 1 2 3 4 5 6 7 8; do echo "{ locks = ['m'], at = $n, len = 1 },"; done)"
  refused: TooManySections 1
  [4]

Limits of a section
-------------------

  $ sections '{ locks = [], at = 0, len = 1 }'
  refused: NoLocks 1 1
  [4]
  $ sections "{ locks = ['a', 'b', 'c', 'd', 'e'], at = 0, len = 1 }"
  refused: TooManyLocks 1 1
  [4]
  $ sections "{ locks = ['m', 'm', 'm', 'm', 'm'], at = 0, len = 1 }"
  refused: TooManyLocks 1 1
  [4]
  $ sections "{ locks = ['m', 'm'], at = 0, len = 1 }"
  refused: LockTwice 1 1
  [4]
  $ sections "{ locks = ['m'], at = 0, len = 0 }"
  refused: LenZero 1 1
  [4]
  $ sections "{ locks = ['m'], at = 0, len = 501 }, { locks = ['n'], at = 500, len = 500 }"
  refused: Overlap 1 2
  [4]
  $ sections "{ locks = ['m'], at = 1000, len = 4001 }"
  refused: SectionPastCost 1 1
  [4]

A section without `at` begins where the section before it ends, which is past the cost, if that ends there:

  $ sections "{ locks = ['m'], len = 5000 }"
  admitted 1
  1 a 5000
  (on standard error) note: lock m has one user, a
  $ sections "{ locks = ['m'], len = 5001 }"
  refused: SectionPastCost 1 1
  [4]
  $ sections "{ locks = ['m'], at = 4000, len = 1000 }, { locks = ['m'], len = 1 }"
  refused: SectionPastCost 1 2
  [4]
  $ sections "{ locks = ['m'], len = 2 }, { locks = ['m'], at = 1, len = 1 }"
  refused: Overlap 1 2
  [4]
  $ sections "{ locks = ['m'], at = 9223372036854775807, len = 9223372036854775807 }, { locks = ['m'], len = 9223372036854775807 }, { locks = ['m'], len = 1 }"
  refused: SectionPastCost 1 1
  [4]
  $ sections "{ locks = ['m'], at = '0', len = 1 }"
  refused: WrongKind 1 1 at
  [4]

Limits of a set
---------------

  $ a="name = 'a', period = 10000, deadline = 10000, cost = 5000"
  $ document "task = [{ $a }, { $a }]"
  refused: SameName 2
  [4]

33 tasks are one too many. Where two of them share a name, SameName comes first:

  $ tasks() {
  >   for n in $(seq 1 $1); do
  >     echo "[[task]]"; echo "name = 't$n'"; echo "period = 10000"; echo "deadline = 10000"; echo "cost = 100"
  >   done
  > }
  $ tasks 33 | desk admit -
  refused: TooManyTasks
  [4]
  $ { tasks 32; tasks 1; } | desk admit -
  refused: SameName 33
  [4]

Which refusal comes first
-------------------------

The root's keys come before its kinds; a task's UnknownKey before MissingKey before WrongKind, its sections' keys and
kinds before names, names before limits; a task's limits before its sections':

  $ document 'x = 1\ntask = 1'
  refused: UnknownKey 0 0
  [4]
  $ task 'x = 1, period = -1'
  refused: UnknownKey 1 0
  [4]
  $ task 'period = -1, deadline = 10000'
  refused: MissingKey 1 0 name
  [4]
  $ task "name = '9x', period = 1, deadline = 1, cost = 0, section = [{ locks = ['m'], at = 0 }]"
  refused: MissingKey 1 1 len
  [4]
  $ task "name = '9x', period = 1, deadline = 1, cost = 0"
  refused: BadName 1 0
  [4]
  $ task "name = 'a', weight = 1001, period = 1, deadline = 0, cost = 0"
  refused: BadWeight 1
  [4]
  $ task "name = 'a', period = 1, deadline = 0, cost = 0"
  refused: BadPeriod 1
  [4]
  $ task "name = 'a', period = 10000, deadline = 0, cost = 0"
  refused: DeadlineZero 1
  [4]
  $ task "name = 'a', period = 10000, deadline = 10000, cost = 0, section = [{ locks = [], at = 0, len = 0 }]"
  refused: CostZero 1
  [4]
  $ sections "{ locks = ['m'], at = 0, len = 501 }, { locks = [], at = 500, len = 0 }"
  refused: NoLocks 1 2
  [4]
  $ sections "{ locks = ['m', 'm'], at = 0, len = 0 }"
  refused: LockTwice 1 1
  [4]
  $ sections "{ locks = ['m'], at = 0, len = 501 }, { locks = ['m'], at = 500, len = 5000 }"
  refused: Overlap 1 2
  [4]

The first faulty task comes first, and its own faults before SameName:

  $ document "task = [{ name = 'a', period = 10000, deadline = 10000, cost = 0 }, { name = 'a' }]"
  refused: CostZero 1
  [4]
  $ document "task = [{ $a }, { name = 'a', period = 10000, deadline = 10000, cost = 0 }]"
  refused: CostZero 2
  [4]

Tasks that must be outranked
----------------------------

  $ more 'outranks = []'
  admitted 1
  1 a 5000
  $ more "outranks = ['z']"
  admitted 1
  1 a 5000
  $ more "outranks = 'z'"
  refused: WrongKind 1 0 outranks
  [4]
  $ more "outranks = ['z', 1]"
  refused: WrongKind 1 0 outranks
  [4]
  $ more "outranks = ['z', '1']"
  refused: BadName 1 0
  [4]
  $ more "outranks = ['z', 'y', 'z', 'a']"
  refused: OutranksTwice 1
  [4]
  $ more "outranks = ['z', 'a']"
  refused: OutranksSelf 1
  [4]
  $ more "outranks = ['b', 'c', 'd', 'e', 'f', 'g', 'h', 'i']"
  admitted 1
  1 a 5000
  $ more "outranks = ['b', 'c', 'd', 'e', 'f', 'g', 'h', 'i', 'b']"
  refused: TooManyOutranks 1
  [4]

Names of locks come before them, whatever is wrong with both:

  $ more "outranks = ['1'], section = [{ locks = ['2'], at = 0, len = 1 }]"
  refused: BadName 1 1
  [4]

A task's jitter, which is checked before these:

  $ more 'jitter = 0'
  admitted 1
  1 a 5000
  $ more 'jitter = 1'
  admitted 1
  1 a 5001
  $ more "jitter = 'z', outranks = 'z'"
  refused: WrongKind 1 0 jitter
  [4]
  $ more "jitter = 10000, outranks = ['a']"
  refused: BadJitter 1
  [4]
  $ document "task = [{ name = 'a', period = 10000, deadline = 0, cost = 5000, jitter = 0, outranks = ['a'] }]"
  refused: DeadlineZero 1
  [4]
