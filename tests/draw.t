`desk draw SET RELEASES` draws what `desk simulate` prints, as one SVG document: a bar for each slice, a box for each job,
one path for each kind of mark; above the rows a lane of all slices. `worked.t` has three more documents.

  $ slices() { grep -c 'class="e .* us</title>' "$1"; }
  $ lane() { grep -c ' executes .* us</title>' "$1"; }
  $ boxes() { grep -c 'class="w".*: arrival ' "$1"; }
  $ for run in shared-lock:shared-lock.releases jitter:late.releases blocked-out-repaired:holder-runs-on.releases; do set=examples/${run%:*}.toml; list=examples/${run#*:}; desk draw $set $list > run.svg || echo $?; desk simulate $set $list > printed; [ $(slices run.svg) = $(grep -vc ^job printed) ] || echo slices of $run; [ $(lane run.svg) = $(grep -vc ^job printed) ] || echo lane of $run; [ $(boxes run.svg) = $(grep -c ^job printed) ] || echo jobs of $run; done

Each bar says whose it is and when, each job its times; in microseconds:

  $ desk draw examples/jitter.toml examples/late.releases > run.svg
  $ desk simulate examples/jitter.toml examples/late.releases | grep -v ^job | while read start stop name; do grep -q "<title>$name $start to $stop us</title>" run.svg && grep -q "<title>$name executes $start to $stop us</title>" run.svg || echo $name $start; done
  $ grep -c '<title>a: arrival 0, done 7000, response 7000, bound 7000, deadline 7000 us</title>' run.svg
  1

A job that isn't done by the end, and a part that is darker:

  $ printf 'until 3000\n0 lo\n' | desk draw examples/shared-lock.toml - > run.svg
  $ grep -c 'lo: arrival 0, not done, bound 27000, deadline 100000 us' run.svg
  1
  $ grep -c '<title>lo holds m 100 to 3000 us</title>' run.svg
  1

Why a job waits, for a task above or for one below that blocks it by a lock:

  $ desk draw examples/shared-lock.toml examples/shared-lock.releases | sed -nE 's/.*<title>(.* (waits for|is blocked by) .*)<.title>.*/\1/p'
  lo waits for hi 4100 to 5100 us
  lo waits for mid 5100 to 7100 us
  mid is blocked by lo with m 200 to 4100 us
  mid waits for hi 4100 to 5100 us
  hi is blocked by lo with m 300 to 4100 us

Both waits for one section end at one instant, from which a link goes down to the bar of the task that held it:

  $ desk draw examples/shared-lock.toml examples/shared-lock.releases | grep -c 'class="wj d1"'
  2

The pictures of README.md and docs/FORMATS.md are those of the commands beside them:

  $ desk releases examples/shared-lock.toml 100000 | desk draw examples/shared-lock.toml - | cmp - docs/picture-1.svg
  $ desk draw examples/jitter.toml examples/late.releases | cmp - docs/picture-2.svg
  $ desk worst examples/robot.toml | desk draw examples/robot.toml - | cmp - docs/picture-3.svg
  $ desk releases examples/three-tasks.toml 60000 | desk draw examples/three-tasks.toml - --beside examples/three-tasks-weighted.toml | cmp - docs/picture-4.svg
  $ desk draw examples/steer.toml examples/steer.releases --chain steer | cmp - docs/picture-5.svg

A window: what lies in it is drawn, and cut at its edges, where two chevrons show what goes on; the margin's figures are those
of the run, but the heading names the window, for which the processor is busy. Its scale begins in it:

  $ wide() { desk draw examples/shared-lock.toml examples/shared-lock.releases "$@"; }
  $ wide --from 1000 --to 6000 > run.svg
  $ sed -nE 's/.*<title>(.* to .* us)<.title>.*/\1/p' run.svg
  lo executes 0 to 4100 us
  hi executes 4100 to 5100 us
  mid executes 5100 to 7100 us
  lo waits for hi 4100 to 5100 us
  lo waits for mid 5100 to 7100 us
  mid is blocked by lo with m 200 to 4100 us
  mid waits for hi 4100 to 5100 us
  hi is blocked by lo with m 300 to 4100 us
  lo 0 to 4100 us
  lo holds m 100 to 4100 us
  hi 4100 to 5100 us
  hi holds m 4100 to 4300 us
  mid 5100 to 7100 us
  $ grep -o 'm-20 0l-60\|m20 0l60' run.svg | sort | uniq -c | sed 's/  *//'
  3 m-20 0l-60
  2 m20 0l60
  $ sed -nE 's/.* y="1200">(.*)<.text>/\1/p' run.svg | xargs
  1000 2000 3000 4000 5000 6000 time in us
  $ grep -oE '(tasks: .* us|busy .* %)<.text' run.svg
  tasks: 3, jobs: 3, until 100000 us, shown: 1000 to 6000 us</text
  busy 100.0 %</text
  $ wide --from 22000 --to 24000 | grep -o 'busy .* %'
  busy 50.0 %

All of it has one unit: milliseconds where the window has ten of them, else microseconds, also between two of the scale's
whole milliseconds:

  $ units() { sed -nE 's/<title>[^<]*<.title>//g; s/.*>([^<]*(time in|deadline [0-9]|bound|until) [^<]*)<.text>.*/\1/p' | paste -sd '|'; }
  $ wide --to 10000 | units
  tasks: 3, jobs: 3, until 100 ms, shown: 0 to 10 ms|time in ms|bound 5 of 10 ms|bound 7 of 20 ms|bound 27 of 100 ms
  $ wide --to 9999 | units
  tasks: 3, jobs: 3, until 100000 us, shown: 0 to 9999 us|time in us|bound 5000 of 10000 us|bound 7000 of 20000 us|bound 27000 of 100000 us
  $ wide --to 10000 --width 16000 | sed -nE 's/.* y="1200">(.*)<.text>/\1/p' | sed -n '2p;21p;$p'
  0.1
  2
  time in ms

The whole window is the picture without one:

  $ wide > run.svg
  $ wide --from 0 --to 100000 | cmp - run.svg
  $ wide --to 60000000 --title '' | cmp - run.svg
  $ wide --tasks lo,mid,hi | cmp - run.svg

Where nothing of the run lies in it:

  $ wide --from 5000 --to 5000
  refused: EmptyWindow
  [4]
  $ wide --from 100000
  refused: EmptyWindow
  [4]
  $ wide --to 0
  refused: EmptyWindow
  [4]

Without a word only tasks of the list have rows; `all` gives one to each, with its level and tone as ever. A tone goes by the
name: where hi and lo would have one, lo, which stands behind hi by its bytes, has the next that is free:

  $ rows() { sed -nE 's/.*class="v"[^>]*>([0-9]+)<.text><rect class="(f[0-9])".*/\1 \2/p; s/.*<title>done: .*<.title>(.*)<.text>/\1/p' | paste -sd ' '; }
  $ printf 'until 3000\n0 lo\n' | desk draw examples/shared-lock.toml - | rows
  1 f0 lo
  $ printf 'until 3000\n0 lo\n' | desk draw examples/shared-lock.toml - --tasks all | rows
  3 f9 hi 2 f3 mid 1 f0 lo
  $ wide --tasks all | cmp - run.svg
  $ echo 'until 3000' | desk draw examples/shared-lock.toml - | rows
  
  $ printf "task = [\n{ name = 'all', period = 9000, deadline = 9000, cost = 1000 },\n{ name = 'b', period = 9000, deadline = 9000, cost = 1000 },\n]\n" > all.toml
  $ for some in all all,all; do echo 'until 9000' | desk draw all.toml - --tasks $some | rows; done
  2 f8 b 1 f2 all
  1 f2 all

The worst case of a deadline that is missed has its tasks alone, and goes on until that job is done, so that it shows how late:

  $ desk worst examples/robot.toml | grep -v '^thread\|^mutex'
  # motor misses 1000
  until 1150
  0 battery
  101 motor
  $ desk worst examples/robot.toml | desk draw examples/robot.toml - > run.svg
  $ rows < run.svg
  9 f4 motor 3 f8 battery
  $ grep -o 'missed: .*<' run.svg
  missed: 1<
  missed: 1, 49 us late<
  $ desk worst examples/robot.toml | desk draw examples/robot.toml - --tasks all | rows
  9 f4 motor 8 f0 imu 7 f6 balance 6 f3 lidar 5 f2 camera 4 f9 planner 3 f8 battery 2 f7 diagnostics 1 f5 upload

Rows that are chosen keep their order, their levels and their tones; the lane stays whole, and the link needs both rows:

  $ wide --tasks lo,hi > run.svg
  $ grep -o '<text class="v".*class="f[0-9]"' run.svg
  <text class="v" x="300" y="1920">3</text><rect class="f9"
  <text class="v" x="300" y="2400">1</text><rect class="f0"
  $ lane run.svg
  4
  $ slices run.svg
  3
  $ grep -c 'class="wj' run.svg
  1
  $ wide --tasks mid | grep -c 'class="wj'
  0
  [1]
  $ wide --tasks hi,low
  refused: NoSuchTask low
  [4]
  $ wide --tasks hi,
  refused: NoSuchTask
  [4]
  $ wide --from 100000 --tasks low
  refused: NoSuchTask low
  [4]
  $ desk draw examples/blocked-out.toml examples/shared-lock.releases --tasks low
  refused: NoSuchTask low
  [4]

A width and a title, of which each byte stands for itself where XML has its character:

  $ wide --width 2000 | sed -n 2p
  <svg xmlns="http://www.w3.org/2000/svg" version="1.1" width="2000" height="360" viewBox="0 0 20000 3600">
  $ wide --title "$(printf 'a\357\277\276\357\277\277b\357\277\275')" | sed -n 3p
  <title>tasks: 3, jobs: 3, until 100000 us - a  b�</title>
  $ wide --title 'R&D <hi> é' | sed -nE '3p;s/^(<text class="t".*)/\1/p'
  <title>tasks: 3, jobs: 3, until 100000 us - R&amp;D &lt;hi&gt; é</title>
  <text class="t" x="100" y="200">no deadline missed - R&amp;D &lt;hi&gt; é</text>
  $ desk worst examples/robot.toml | desk draw examples/robot.toml - --title 'at rest' | grep 'class="t q"'
  <text class="t q" x="320" y="200">deadlines missed: 1 - at rest</text>

A picture of 960 pixels has room for 93 letters of 10 pixels, 21 of them in front of a title, 28 behind a miss, so that 72 and 65
are left; Chinese characters take two. What is longer is cut, but not in the document's own title:

  $ titled() { sed -nE '3p;s/.*<text class="t[^>]*>(.*)<.text>/\1/p'; }
  $ zeros() { printf "%0$1d" 0; }
  $ wide --width 960 --title "$(zeros 72)" | titled
  <title>tasks: 3, jobs: 3, until 100000 us - 000000000000000000000000000000000000000000000000000000000000000000000000</title>
  no deadline missed - 000000000000000000000000000000000000000000000000000000000000000000000000
  $ wide --width 960 --title "$(zeros 73)" | titled
  <title>tasks: 3, jobs: 3, until 100000 us - 0000000000000000000000000000000000000000000000000000000000000000000000000</title>
  no deadline missed - 0000000000000000000000000000000000000000000000000000000000000000000000…
  $ wide --width 970 --title "$(zeros 73)" | titled | tail -n 1
  no deadline missed - 0000000000000000000000000000000000000000000000000000000000000000000000000
  $ wide --width 960 --title "$(printf '日%.0s' $(seq 37))" | titled | tail -n 1
  no deadline missed - 日日日日日日日日日日日日日日日日日日日日日日日日日日日日日日日日日日日…
  $ missed() { desk worst examples/robot.toml | desk draw examples/robot.toml - --width 960 --title "$(zeros $1)" | titled | tail -n 1; }
  $ missed 65; missed 66
  deadlines missed: 1 - 00000000000000000000000000000000000000000000000000000000000000000
  deadlines missed: 1 - 000000000000000000000000000000000000000000000000000000000000000…

What the title of a row's name says is what `desk simulate --tasks` prints:

  $ desk draw examples/jitter.toml examples/late.releases | sed -nE 's/.*<title>done: (.*), greatest response: (.*), bound: (.*) us<.title>(.*)<.text>/task \4 \1 \2 \3/p' | sort
  task a 3 7000 7000
  task b 2 3000 3000
  task c 1 20000 20000
  $ desk simulate examples/jitter.toml examples/late.releases --tasks | sort
  task a 3 7000 7000
  task b 2 3000 3000
  task c 1 20000 20000

What stands in a picture to be read, in its order: the verdict, the scale, the lane, the rows, the locks, and of the legend the
signs that are drawn:

  $ read_all() { sed -nE 's/<title>[^<]*<.title>//g; s/<.text>/&\n/gp' "$1" | sed -nE 's/.*<text[^>]*>(.*)<.text>/\1/p' | paste -sd '|' | sed 's/|/ | /g'; }
  $ printf 'until 12000\n0 a 1000\n1000 b\n1000 c\n7000 a\n' | desk draw examples/jitter.toml - > run.svg
  $ read_all run.svg
  no deadline missed | tasks: 3, jobs: 4, until 12 ms | 0 | 2 | 4 | 6 | 8 | 10 | 12 | time in ms | processor | busy 91.6 % | 3 | b | bound 3 of 12 ms | 2 | a | bound 7 of 7 ms | 1 | c | bound 20 of 20 ms | b | a | a | c | b | b | a | a | executes | waits for a task above, in its colour | goes on | arrival to bound | arrival | not ready yet | deadline
  $ signs() { grep -oE 'y="(668|918)">[^<]*' | sed 's/.*>//' | paste -sd '|'; }
  $ echo 'until 3000' | desk draw examples/shared-lock.toml - | signs
  
  $ printf 'until 3000\n0 lo\n' | desk draw examples/shared-lock.toml - --to 2000 | signs
  executes|goes on|arrival to bound|arrival

A list's own order, in which hi has no bound and misses its deadline: what is hatched behind the deadline says so, a badge
stands on it, and above and in its row how many they are, there with how late. Where none is missed, that stands above:

  $ printf 'thread lo 1\nthread hi 2\nuntil 12000\n0 lo\n1001 hi\n' | desk draw examples/blocked-out.toml - > missed.svg
  $ grep -o '<title>hi: arrival .*</title>' missed.svg
  <title>hi: arrival 1001, done 5500, response 4499, bound -, deadline 4400 us</title>
  <title>hi: arrival 1001, done 5500, response 4499, deadline 4400 us missed</title>
  $ grep -o '<title>done: 1, .*' missed.svg
  <title>done: 1, greatest response: 4499, bound: - us</title>hi</text>
  <title>done: 1, greatest response: 12000, bound: 14000 us</title>lo</text>
  $ grep -A 2 '<.title>hi<' missed.svg | sed -E 's/<title>.*<.title>//; s/<[^>]*>//g'
  hi
  deadline 4.4 ms
  missed: 1, 0.099 ms late
  $ grep -c 'class="t q".*deadlines missed: 1<' missed.svg
  1
  $ grep -o 'no deadline missed' run.svg
  no deadline missed

Jobs of a task that are too close to be drawn apart are one band, with their number, their longest response and the last
bound; of their marks no other stands:

  $ printf "task = [\n{ name = 'a', period = 1000, deadline = 400, cost = 100 },\n{ name = 'b', period = 200000, deadline = 200000, cost = 600 },\n]\n" > many.toml
  $ desk releases many.toml 200000 | desk draw many.toml - > many.svg
  $ grep -A 2 'class="l w"' many.svg
  <path class="l w" d="M1960 1855H15737v180H1960z"><title>a: 200 jobs, arrivals 0 to 199000, done 200, longest response 100, bound 100, deadline 400 us</title></path>
  <text x="1980" y="2145">200 jobs, longest 0.1 ms</text>
  <path class="b" d="M15737 1845h-35m35 0v40m0 120v40h-35"/>
  $ grep -c 'class="l w"' many.svg
  1
  $ grep '^<path class="w".*: arrival' many.svg
  <path class="w" d="M1960 2335H2008v180H1960z"><title>b: arrival 0, done 700, response 700, bound 700, deadline 200000 us</title></path>
  $ sed -n '/<path class="[ard]" d="$/,/^"/p' many.svg
  <path class="r" d="
  "/>
  <path class="a" d="
  M1960 2620v-100m-35 50l35-50 35 50
  "/>
  <path class="d" d="
  M15800 2230v100m0 0l-35-50h70z
  "/>
  $ slices many.svg
  201

A band goes on while each job comes close behind the one before it, and others stand alone; the last one may not be done:

  $ printf 'until 200000\n0 a\n1000 a\n2000 a\n100000 a\n101000 a\n105000 a\n' | desk draw many.toml - > many.svg
  $ grep -oE '<title>a: .*(jobs|arrival).*</title>' many.svg
  <title>a: 3 jobs, arrivals 0 to 2000, done 3, longest response 100, bound 100, deadline 400 us</title>
  <title>a: 2 jobs, arrivals 100000 to 101000, done 2, longest response 100, bound 100, deadline 400 us</title>
  <title>a: arrival 105000, done 105100, response 100, bound 100, deadline 400 us</title>
  $ grep -o '<text x="[0-9]*" y="2145">.*' many.svg
  <text x="1980" y="2145">3</text>
  <text x="8900" y="2145">2</text>
  $ printf 'until 199050\n197000 a\n198000 a\n199000 a\n' | desk draw many.toml - > many.svg
  $ grep -A 2 'class="l w"' many.svg
  <path class="l w" d="M15657 1855H15800v180H15657z"><title>a: 3 jobs, arrivals 197000 to 199000, done 2, longest response 100, bound 100, deadline 400 us</title></path>
  <text x="15677" y="2145">3</text>
  <path class="a" d="M15800 1885m20 0l60 60-60 60m60-120l60 60-60 60"/>

In a window a band is that of the run, cut at both edges; where its jobs have room, each stands alone:

  $ part() { desk releases many.toml 200000 | desk draw many.toml - "$@"; }
  $ part --from 50000 --to 150000 | grep -A 3 'class="l w"'
  <path class="l w" d="M1960 1855H15800v180H1960z"><title>a: 200 jobs, arrivals 0 to 199000, done 200, longest response 100, bound 100, deadline 400 us</title></path>
  <text x="1980" y="2145">200 jobs, longest 0.1 ms</text>
  <path class="a" d="M1960 1885m-20 0l-60 60 60 60m-60-120l-60 60 60 60"/>
  <path class="a" d="M15800 1885m20 0l60 60-60 60m60-120l60 60-60 60"/>
  $ part --from 50000 --to 60000 > many.svg
  $ grep -c 'class="l w"' many.svg
  0
  [1]
  $ grep -c '^<path class="w".*<title>a: arrival 5' many.svg
  10
  $ printf 'until 200000\n0 a\n1000 a\n2000 a\n100000 a\n101000 a\n' | desk draw many.toml - --from 99000 > many.svg
  $ sed -nE 's/.*<title>(a: .*(jobs|arrival).*)<.title>.*/\1/p' many.svg
  a: 2 jobs, arrivals 100000 to 101000, done 2, longest response 100, bound 100, deadline 400 us

A deadline that is missed in one is shown as ever:

  $ printf 'thread a 1\nthread b 2\nuntil 200000\n0 a\n0 b\n1000 a\n2000 a\n' | desk draw many.toml - > many.svg
  $ grep -oE '<title>a: .*(jobs|missed).*</title>' many.svg
  <title>a: 3 jobs, arrivals 0 to 2000, done 3, longest response 700, bound -, deadline 400 us</title>
  <title>a: arrival 0, done 700, response 700, deadline 400 us missed</title>
  $ grep -c '^<path class="x" d="M1987 2255h1"/>' many.svg
  1

Of many that are missed not each has a disc, but its hatching:

  $ printf "task = [\n{ name = 'a', period = 10000, deadline = 1000, cost = 5000 },\n{ name = 'b', period = 20000, deadline = 20000, cost = 1000 },\n]\n" > late.toml
  $ { printf 'thread a 1\nthread b 2\nuntil 2000000\n'; for i in $(seq 0 199); do echo $((i * 10000)) a; done; } | desk draw late.toml - > late.svg
  $ grep -c '^<path class="z".* missed</title>' late.svg
  200
  $ grep -c '^<path class="x" d="M[0-9]* 1775h1"/>' late.svg
  67

Where only the hatching of a job is left in a window, its signs stand there too:

  $ printf 'thread a 1\nthread b 2\nuntil 40000\n0 a\n0 b\n10000 a\n' | desk draw late.toml - --from 2000 --to 4000 | grep -E '^<path class="[awz]" d="M(2004|9400)'
  <path class="z" d="M2004 2315H9400v220H2004z"><title>a: arrival 0, done 6000, response 6000, deadline 1000 us missed</title></path>
  <path class="a" d="M2004 2365m-20 0l-60 60 60 60m-60-120l-60 60 60 60"/>
  <path class="a" d="M9400 2365m20 0l60 60-60 60m60-120l60 60-60 60"/>

What the bounds count, and the run lacks, its second line says:

  $ cat examples/shared-lock.toml - << END > timed.toml
  > [[interrupt]]
  > period = 5000
  > cost = 10
  > END
  $ printf 'until 3000\n0 lo\n' | desk draw timed.toml - --to 2000 2> note | grep -o 'tasks: .*shown.*<'
  tasks: 3, jobs: 1, until 3000 us, timers and interrupts in the bounds alone, shown: 0 to 2000 us<
  $ cat note
  note: what timers and interrupts take is in the bounds, and not in the run

With settings in front each name has the number of its thread behind it:

  $ numbered() { sed -nE 's/.*<title>done: .*<.title>([^<]*)(<tspan[^>]*>([0-9]+)<.tspan>)?<.text>/\1 \3/p' | paste -sd '|'; }
  $ { desk settings examples/shared-lock.toml --base 50; cat examples/shared-lock.releases; } | desk draw examples/shared-lock.toml - | numbered
  hi 52|mid 51|lo 50
  $ desk draw examples/shared-lock.toml examples/shared-lock.releases | numbered
  hi |mid |lo 

The names of several locks stand below the bar, and one name on its stripe; waits are 6 pixels high:

  $ printf "task = [\n{ name = 'a', period = 9000, deadline = 9000, cost = 6000, section = [{ locks = ['m', 'n'], at = 1000, len = 2000 }, { locks = ['n'], at = 4000, len = 1000 }] },\n{ name = 'b', period = 9000, deadline = 9000, cost = 1000, section = [{ locks = ['m'], at = 0, len = 1 }] },\n]\n" > nested.toml
  $ printf 'until 9000\n0 a\n0 b\n' | desk draw nested.toml - > nested.svg 2> note
  $ sed -nE 's/^<text class="([km])" .*>(.*)<.text>/\1\2/p' nested.svg
  m m n
  k n
  $ grep -oE '[.]w[ab][{]stroke-width:[0-9]+' nested.svg
  .wa{stroke-width:60
  .wb{stroke-width:60

A stripe isn't wider than its lock is held, and the last number of the scale stays in the picture:

  $ printf 'until 10000000\n0 hi\n' | desk draw examples/shared-lock.toml - | grep -oE '^<path class="(e f9|h|k1)" d="M1960 18[^"]*"'
  <path class="e f9" d="M1960 1855H1965v180H1960z"
  <path class="h" d="M1960 1855H1961v180H1960z"
  <path class="k1" d="M1960 1855H1961v180H1960z"
  $ printf 'until 60000000\n0 hi\n' | desk draw examples/shared-lock.toml - --from 59000000 --to 59003000 | sed -nE 's/.*x="([0-9]*)" y="1200">(.*)<.text>/\1 \2/p' | tail -n 3
  8188 59002500
  9310 59003000
  500 time in us

What timers and interrupts take of a bound is hatched, behind where a run can end, with how long that is, and the legend says
so; also of a band. Where nothing is hatched it doesn't:

  $ cat > timed.toml << END
  > [[interrupt]]
  > period = 5000
  > cost = 200
  > [[task]]
  > name = "a"
  > period = 20000
  > deadline = 10000
  > cost = 1000
  > END
  $ desk admit timed.toml
  admitted 1
  1 a 1200
  $ unrun() { sed -nE 's/.*class="wt" d="(M[^"]*)"><title>(timers [^<]*)<.*/\1 \2/p; s/.*>(timers and interrupts, not in this run)<.text>/\1/p'; }
  $ printf 'until 3720\n0 a\n' | desk draw timed.toml - 2> note | unrun
  M3992 1855H4389v180H3992z timers and interrupts, not in this run: 200 us
  timers and interrupts, not in this run
  $ printf 'until 3720\n0 a\n' | desk draw timed.toml - --to 1000 2> note | unrun
  $ printf 'until 10000000\n0 a\n20000 a\n' | desk draw timed.toml - 2> note | unrun
  M1989 1855H1994v180H1989z timers and interrupts, not in this run: 200 us
  timers and interrupts, not in this run
  $ desk draw examples/shared-lock.toml examples/shared-lock.releases | unrun

The same tasks and locks keep their tones in a set with other numbers, another order and other tasks:

  $ tones() { grep -oE '<rect class="f[0-9]"|</title>[a-z]+<' | paste - - | sed -E 's/.*(f[0-9]).*>([a-z]+)</\2 \1/' | sort; }
  $ echo 'until 9000' > none.releases
  $ desk worst examples/robot.toml | desk draw examples/robot.toml - --tasks all | tones > before
  $ wc -l < before
  9
  $ desk draw examples/robot-mended.toml none.releases --tasks all | tones | cmp - before
  $ sed 's/period = 25000/period = 90000/' examples/robot-mended.toml | desk draw - none.releases --tasks all | tones | cmp - before
  $ { cat examples/robot-mended.toml; printf '[[task]]\nname = "zzz"\nperiod = 900000\ndeadline = 900000\ncost = 1\n'; } > more.toml
  $ desk draw more.toml none.releases --tasks all | tones | grep -v zzz | cmp - before

Of more than ten tasks some have one tone, as a and k, but no row has that of the one above it:

  $ for name in a b c d e f g h i j k o; do printf '[[task]]\nname = "%s"\nperiod = 90000\ndeadline = 90000\ncost = 1\n' $name; done > twelve.toml
  $ desk draw twelve.toml none.releases --tasks all | rows
  12 f1 o 11 f7 k 10 f6 j 9 f5 i 8 f4 h 7 f3 g 6 f2 f 5 f1 e 4 f0 d 3 f9 c 2 f8 b 1 f7 a
  $ desk draw twelve.toml none.releases --tasks a,k | rows
  11 f7 k 1 f8 a

The legend has the locks that are held in what is drawn, by their names, and no others; twelve of one task are all different:

  $ legend() { sed -nE 's/.*class="(k[0-9]+)".*class="c"[^>]*>(.*)<.text>/\1 \2/p' | paste -sd ' '; }
  $ desk draw examples/shared-lock.toml examples/shared-lock.releases | legend
  k1 m
  $ desk draw examples/shared-lock.toml examples/shared-lock.releases --from 6000 | legend
  
  $ desk draw examples/shared-lock.toml examples/shared-lock.releases --tasks mid | legend
  
  $ { printf '[[task]]\nname = "a"\nperiod = 90000\ndeadline = 90000\ncost = 9000\nsection = [\n'; for i in 0 1 2; do printf "{ locks = ['l%s', 'm%s', 'n%s', 'o%s'], at = %s, len = 500 },\n" $i $i $i $i $((i * 1000)); done; echo ']'; } > locks.toml
  $ printf 'until 9000\n0 a\n' | desk draw locks.toml - 2> note | legend
  k12 l0 k13 l1 k14 l2 k7 m0 k8 m1 k9 m2 k2 n0 k3 n1 k4 n2 k33 o0 k34 o1 k35 o2

On paper it is as wide as that is across, and unless a width is said so many pixels that its least type, of 10.5, is 6 points
high:

  $ wide --print 4 | sed -n 2p
  <svg xmlns="http://www.w3.org/2000/svg" version="1.1" width="297mm" height="73mm" viewBox="0 0 14700 3600">
  $ wide --print 3 | sed -n 2p
  <svg xmlns="http://www.w3.org/2000/svg" version="1.1" width="420mm" height="73mm" viewBox="0 0 20800 3600">
  $ wide --print 3 --width 960 | sed -n 2p
  <svg xmlns="http://www.w3.org/2000/svg" version="1.1" width="420mm" height="158mm" viewBox="0 0 9600 3600">
  $ wide --print 2 2> note
  [2]

What it draws stands alone:

  $ head -n 1 run.svg
  <?xml version="1.0" encoding="UTF-8"?>
  $ tail -n 1 run.svg
  </svg>
  $ grep -c '<script\|@import\|href="http\|<image' run.svg
  0
  [1]

An infeasible set and refused releases end as in `simulate`:

  $ desk draw examples/blocked-out.toml examples/shared-lock.releases
  infeasible hi
  [3]
  $ printf 'until 20000\n0 x\n' | desk draw examples/shared-lock.toml -
  refused: UnknownTask 1
  [4]
  $ printf 'x\n' | desk draw examples/shared-lock.toml -
  refused: BadLine 1
  [4]

With `--beside` the list runs on a second set, too: each task's row in that stands below its row in the first, and where a job's
response changed a mark says so. The heading counts for both:

  $ sed 's/len = 4000/len = 1000/' examples/shared-lock.toml > shorter.toml
  $ both() { desk draw examples/shared-lock.toml examples/shared-lock.releases --beside "$@"; }
  $ both shorter.toml > run.svg
  $ grep -o '>before: [^<]*\|>after: [^<]*' run.svg | cut -c 2-
  before: tasks: 3, jobs: 3, until 100000 us, after: tasks: 3, jobs: 3, until 100000 us
  before: no deadline missed, after: no deadline missed
  before: tasks: 3, jobs: 3, until 100 ms, after: tasks: 3, jobs: 3, until 100 ms, responses changed: 2
  $ both shorter.toml --width 960 --title "$(zeros 38)" | grep -o '>before: no [^<]*' | cut -c 2-
  before: no deadline missed, after: no deadline missed - 00000000000000000000000000000000000…
  $ sed -nE 's/.*<title>(.*, before .*)<.title>.*/\1/p' run.svg
  mid: response 3900 us, before 6900 us
  hi: response 1800 us, before 4800 us
  $ pairs() { sed -nE 's/.*class="v" x="300" y="([0-9]+)">([^<]*)<.*class="(f[0-9])".*/\1 \2 \3/p; s/.*class="n" x="500" y="[0-9]*">.*<.title>([^<]*)<.text>/\1/p' "$1" | paste -d ' ' - - | sort -n | cut -d ' ' -f 2- | paste -sd '|'; }
  $ pairs run.svg
  3 f9 hi|3 f9 hi|2 f3 mid|2 f3 mid|1 f0 lo|1 f0 lo

Where nothing changed there is no mark; a task keeps its tone where its level is another one, and one that only one set has
leaves a place free:

  $ both examples/shared-lock.toml | grep -c ', before '
  0
  [1]
  $ both examples/shared-lock.toml | grep -o 'responses changed: [0-9]*'
  responses changed: 0
  $ { sed 's/deadline = 20000/deadline = 9000/; s/weight = [12]//' examples/shared-lock.toml; printf '[[task]]\nname = "new"\nperiod = 90000\ndeadline = 90000\ncost = 1\n'; } > turned.toml
  $ both turned.toml --prefer deadline --tasks hi,mid,new > run.svg; pairs run.svg
  3 f9 hi|3 f9 hi|2 f3 mid|4 f3 mid|2 f1 new

A release that the first set refuses is refused as without `--beside`, one that the second refuses, and a fault of its, behind
`new`. A name is refused that neither has. Of a set without an order that is printed, of the first such one:

  $ sed 's/name = "hi"/name = "hx"/; s/len = 4000/len = 40000/' examples/shared-lock.toml > wrong.toml
  $ both wrong.toml
  refused: new SectionPastCost 3 1
  (on standard error) wrong.toml: line 20, task 3 (lo): section 1: it ends past the cost: at 100 and len 40000 make 40100, cost 20000
  [4]
  $ sed 's/name = "hi"/name = "hx"/' examples/shared-lock.toml > other.toml
  $ both other.toml
  refused: new UnknownTask 3
  (on standard error) examples/shared-lock.releases: on the new set, line 4, "300 hi": the set has no task of that name
  [4]
  $ desk draw other.toml examples/shared-lock.releases --beside wrong.toml
  refused: UnknownTask 3
  [4]
  $ { desk settings examples/shared-lock.toml; cat examples/shared-lock.releases; } > ordered.releases
  $ desk draw examples/shared-lock.toml ordered.releases --beside other.toml
  refused: new UnknownTask 3
  (on standard error) ordered.releases: on the new set, line 3, "thread hi 3": the set has no task of that name
  [4]
  $ both turned.toml --tasks hi,new,x
  refused: NoSuchTask x
  (on standard error) examples/shared-lock.toml: no task of either set is called "x"
  [4]
  $ both shorter.toml --from 100000
  refused: EmptyWindow
  [4]
  $ printf 'until 10\n0 h\000i\n' | desk draw examples/shared-lock.toml - --beside shorter.toml
  refused: BadLine 2
  (on standard error) standard input: line 2, "0 h?i" has to be TIME NAME [LATE] [runs N], in whole microseconds
  [4]
  $ sed 's/cost = 2000$/cost = 15000/' examples/shared-lock.toml > full.toml
  $ both full.toml
  infeasible lo mid hi
  (on standard error) note: no order of the new set passes, so there is no picture: desk explain says why
  [3]
  $ desk draw examples/blocked-out.toml examples/shared-lock.releases --beside full.toml
  infeasible hi
  (on standard error) note: no order of the first set passes, so there is no picture: desk explain says why
  [3]
  $ both none.toml
  refused: ReadFailed
  (on standard error) none.toml: can't be opened or read: No such file or directory
  [7]
  $ desk draw examples/shared-lock.toml - --beside - < examples/shared-lock.releases
  (on standard error) standard input named twice
  [2]
  $ desk simulate examples/shared-lock.toml examples/shared-lock.releases --beside shorter.toml 2> said
  [2]
  $ both < examples/shared-lock.releases 2> said
  [2]
  $ both shorter.toml > run.svg
  $ both - < shorter.toml | cmp - run.svg

With `--chain` the way of what gets oldest behind a chain, from the last job back, and how long it stands; the one of what comes
next is drawn first. Of what lies outside the window nothing is shown:

  $ way() { desk draw examples/steer.toml examples/steer.releases --chain steer "$@"; }
  $ way | sed -nE 's/.*class="y([ab]).*<title>(steer: .*)<.title>.*/\1 \2/p'
  b steer: waits for wheel 49199 to 53598 us
  b steer: wheel 53598 to 54198 us
  b steer: waits for plan 32000 to 39999 us
  b steer: plan 39999 to 49199 us
  b steer: camera 30000 to 32000 us
  a steer: waits for wheel 29199 to 48598 us
  a steer: wheel 48598 to 49198 us
  a steer: waits for plan 12000 to 19999 us
  a steer: plan 19999 to 29199 us
  a steer: camera 10000 to 12000 us
  a steer: stands behind wheel 49198 to 54198 us
  $ way | grep -o 'chain steer: .*bound [^<]*'
  chain steer: age 44.198 ms of bound 44.2 ms
  $ desk simulate --tasks examples/steer.toml examples/steer.releases | grep ^chain
  chain steer 8 age 44198 reaction 44198 bound 44200
  $ way --from 20000 --to 36000 | sed -nE 's/.*class="y([ab]).*<title>(steer: .*)<.title>.*/\1 \2/p; s/.*(chain steer: .*bound [^<]*).*/\1/p'
  a steer: waits for wheel 29199 to 33598 us
  a steer: wheel 33598 to 34198 us
  a steer: plan 19999 to 29199 us
  a steer: stands behind wheel 34198 to 36000 us
  chain steer: age 26 ms of bound 44.2 ms

Before anything has come along the chain nothing stands, and nothing is drawn of it but a line:

  $ way --to 30000 | grep -c 'class="y[ab]'
  0
  [1]
  $ way --to 30000 | grep -o 'chain steer: .*bound [^<]*'
  chain steer: age - of bound 44.2 ms

All but what is laid over it is the picture without `--chain`; with `--tasks` the chain's rows are there, too:

  $ desk draw examples/steer.toml examples/steer.releases > plain.svg
  $ way | grep -v 'class="y[abt]\|^<text x="100" y="3705"' | awk '/^<style/ && n++ { next } { print }' | cmp - plain.svg
  $ way --tasks log | cmp - docs/picture-5.svg

What is replaced at the window's first instant is not in it any more:

  $ printf '[[task]]\nname = "x"\nperiod = 1000\ndeadline = 1000\ncost = 1\n[[chain]]\nname = "c"\ntasks = ["x"]\n' > one.toml
  $ printf 'until 1500\n0 x\n1000 x\n' > twice
  $ desk draw one.toml twice --chain c --from 1000 | grep -o 'chain c: .*bound [^<]*'
  chain c: age 1001 us of bound 1001 us
  $ desk draw one.toml twice --chain c --from 1001 | grep -o 'chain c: .*bound [^<]*'
  chain c: age 500 us of bound 1001 us

Of tasks that write at their deadlines the way goes from each arrival to the deadline:

  $ timed() { printf '[[task]]\nname = "%s"\nperiod = 10000\ndeadline = %s\ncost = 1000\n' cam 9000 act 8000; printf '[[chain]]\nname = "timed"\ntasks = ["cam", "act"]\nwrites = "deadline"\n'; }
  $ timed > timed.toml; desk worst timed.toml --chain timed > built
  $ desk draw timed.toml built --chain timed | sed -nE 's/.*class="y([ab]).*<title>(timed: .*)<.title>.*/\1 \2/p; s/.*(chain timed: .*bound [^<]*).*/\1/p'
  b timed: waits for act 19000 to 28999 us
  b timed: act 28999 to 36999 us
  b timed: cam 10000 to 19000 us
  a timed: waits for act 9000 to 18999 us
  a timed: act 18999 to 26999 us
  a timed: cam 0 to 9000 us
  a timed: stands behind act 26999 to 36999 us
  chain timed: age 36.999 ms of bound 37 ms

The legend has the signs of what is drawn of a way, and no other:

  $ signs() { sed -nE 's/^<path class="y[ab][^"]*" d="M[0-9]+ 1032h.*>([^<]+)<.text>$/\1/p' | paste -sd '|'; }
  $ way | signs
  begins, and reads|to its finish, and writes|what it wrote waits|stands longest|what comes next
  $ way --from 20000 --to 36000 | signs
  begins, and reads|to its finish, and writes|what it wrote waits|stands longest
  $ way --from 50000 --to 53000 | signs
  stands longest
  $ desk draw timed.toml built --chain timed | signs
  arrives, and reads|to its deadline, and writes|what it wrote waits|stands longest|what comes next
  $ desk draw timed.toml built --chain timed --to 36000 | signs
  arrives, and reads|to its deadline, and writes|what it wrote waits|stands longest

A name is refused that no chain has, behind all that is refused without it; two runs have no way:

  $ desk draw examples/steer.toml examples/steer.releases --chain plan
  refused: NoSuchChain plan
  (on standard error) examples/steer.toml: no chain is called "plan": the set has steer
  [4]
  $ desk draw examples/steer.toml examples/steer.releases --chain 'a b' 2> said
  refused: NoSuchChain
  [4]
  $ desk draw examples/steer.toml examples/steer.releases --chain plan --from 70000
  refused: EmptyWindow
  [4]
  $ desk draw examples/steer.toml examples/steer.releases --chain steer --beside examples/steer.toml
  refused: ChainBeside
  (on standard error) examples/steer.releases: a picture of two runs shows no way along a chain
  [4]
