The words of a command line. Wrong words end with status 2, and what is wrong stands on standard error, in the words of
the library `clap`; what those are isn't compared. `desk_says` says on which stream something is said.

  $ said() { test ! -s output || echo output; test ! -s errors || echo errors; }
  $ desk_says() { desk "$@" > output 2> errors; status=$?; said; return $status; }

No words are `desk admit -`:

  $ desk < examples/blocked-out-repaired.toml
  admitted 2
  1 lo 14000
  2 hi 4500

Help is no mistake:

  $ desk_says --help
  output
  $ desk_says -h
  output
  $ desk_says help
  output
  $ for command in admit explain limits settings judge diff certify check releases worst simulate draw observe script play rush; do desk_says $command --help; desk_says help $command; done | uniq
  output

So is the version:

  $ desk_says --version
  output
  $ desk --version
  desk 0.5.0

Help names each command, and of a command its inputs, an example and its statuses:

  $ desk --help > output
  $ for command in admit explain limits settings judge diff certify check releases worst simulate draw observe script play rush; do grep -q "^  $command  *[A-Z]" output || echo $command; done
  $ desk admit --help | grep -c '<SET>$'
  1
  $ desk certify --help | grep -c '<SET>$'
  1
  $ desk check --help | grep -c '<SET> <CERT>$'
  1
  $ desk simulate --help | grep -c '<SET> <RELEASES>$'
  1
  $ desk judge --help | grep -c '<SET> <SETTINGS>$'
  1
  $ desk diff --help | grep -c '<SET> <NEW>$'
  1
  $ desk observe --help | grep -c '<SET> <TRACE>$'
  1
  $ desk settings --help | grep -c -e '^ *--keep <SETTINGS>  *[A-Z]' -e '^ *--base <N>  *[A-Z]' -e '^ *--room <N>  *[A-Z]'
  3
  $ desk releases --help | grep -c '<SET> <UNTIL>$'
  1
  $ for command in explain limits worst; do desk $command --help | grep -c -e '<SET>$' -e '^ *--task <NAME>  *[A-Z]' -e '^ *--at <SETTINGS>  *[A-Z]'; done
  3
  3
  3
  $ desk rush --help | grep -c '<SCRIPT> <WORKERS>$'
  1
  $ for command in admit explain limits settings judge diff certify check releases worst simulate draw observe script play rush; do desk $command --help | grep -q "^Example: .*desk $command " || echo $command; desk $command --help | grep -q '^Status: 0 ' || echo $command; done

That of each command that reads a task set names its two options:

  $ for command in admit explain limits settings judge diff certify check releases worst simulate draw observe script; do desk $command --help | grep -q -e '^ *--prefer <ORDER>  *[A-Z].*chains$' || echo $command; done
  $ for command in admit explain limits settings judge diff certify check releases worst simulate draw observe script; do desk $command --help | grep -q -e '^ *--strict  *[A-Z]' || echo $command; done
  $ for command in play rush; do ! desk $command --help | grep -e --prefer -e --strict; done

No such command, also in other letters; a word too few; a word too many; an option that isn't there:

  $ desk_says x
  errors
  [2]
  $ desk_says ''
  errors
  [2]
  $ desk_says ADMIT examples/three-tasks.toml
  errors
  [2]
  $ desk_says -
  errors
  [2]
  $ desk_says examples/three-tasks.toml
  errors
  [2]
  $ desk_says admit
  errors
  [2]
  $ desk_says certify
  errors
  [2]
  $ desk_says check examples/three-tasks.toml
  errors
  [2]
  $ desk_says simulate examples/three-tasks.toml
  errors
  [2]
  $ desk_says admit examples/three-tasks.toml examples/three-tasks.toml
  errors
  [2]
  $ desk_says certify examples/three-tasks.toml examples/three-tasks.toml
  errors
  [2]
  $ desk_says check examples/three-tasks.toml examples/three-tasks.cert x
  errors
  [2]
  $ desk_says simulate examples/three-tasks.toml examples/shared-lock.releases x
  errors
  [2]
  $ desk_says admit --all examples/three-tasks.toml
  errors
  [2]
  $ desk_says admit -- --help
  output
  errors
  [7]

That last one is a file with the name `--help`, which isn't there:

  $ desk admit -- --help
  refused: ReadFailed
  [7]

Standard input can't be named twice:

  $ desk check - - 2>&1 < examples/three-tasks.toml
  standard input named twice
  [2]
  $ desk_says check - - < examples/three-tasks.toml
  errors
  [2]
  $ desk simulate - - 2>&1 < examples/three-tasks.toml
  standard input named twice
  [2]
  $ desk_says simulate - - < examples/three-tasks.toml
  errors
  [2]

The option stands before the inputs or behind them:

  $ desk admit --prefer deadline examples/three-tasks.toml > before
  $ desk admit examples/three-tasks.toml --prefer=deadline > behind
  $ cmp before behind

An order that isn't there is refused before any input is opened, also where standard input is named twice:

  $ desk admit --prefer weights nowhere 2>&1
  no such preference: --prefer takes weight, deadline or chains
  [2]
  $ desk_says admit --prefer weights nowhere
  errors
  [2]
  $ desk releases examples/three-tasks.toml 1000 --prefer Deadline 2>&1
  no such preference: --prefer takes weight, deadline or chains
  [2]
  $ desk check --prefer= - - 2>&1 < examples/three-tasks.toml
  no such preference: --prefer takes weight, deadline or chains
  [2]

No word to the option, the option twice, before its command, or at a script:

  $ desk_says admit examples/three-tasks.toml --prefer
  errors
  [2]
  $ desk_says admit --prefer deadline --prefer deadline examples/three-tasks.toml
  errors
  [2]
  $ desk_says --prefer deadline admit examples/three-tasks.toml
  errors
  [2]
  $ desk_says play --prefer deadline examples/two-teams-fit.script
  errors
  [2]
  $ desk_says rush --prefer deadline examples/two-teams-fit.script 4
  errors
  [2]

A word that isn't UTF-8:

  $ desk admit "$(printf 'a\377')" 2>&1
  error: a word is not UTF-8
  [2]
  $ desk_says admit "$(printf 'a\377')"
  errors
  [2]
  $ desk_says "$(printf '\377')" admit
  errors
  [2]

Where what is wrong can't be said, a write has failed:

  $ desk x 2> /dev/full
  [7]
  $ desk x 2>&-
  [7]
  $ desk check - - 2> /dev/full
  [7]
  $ desk admit --prefer weights nowhere 2> /dev/full
  [7]
  $ desk admit "$(printf 'a\377')" 2> /dev/full
  [7]
  $ desk admit "$(printf 'a\377')" 2>&-
  [7]
  $ desk --help > /dev/full
  [7]
  $ desk --help >&-
  [7]
