`desk diff SET NEW` says what a change of a set does to each task: what the author did first, then whom it slows down or
helps, and last whose level alone is another.

A set beside itself:

  $ desk diff examples/robot-mended.toml examples/robot-mended.toml
  admitted 9
  was admitted 9

A longer cost takes slack from the tasks of others, as little as 40 microseconds of the camera's are left:

  $ sed 's/^cost = 250$/cost = 265/' examples/robot-mended.toml > imu.toml
  $ desk diff examples/robot-mended.toml imu.toml
  admitted 9
  was admitted 9
  changed imu level 8 8 bound 800 815 slack 1700 1685 keys cost 250 265
  slower balance level 7 7 bound 1750 1765 slack 2250 2235
  slower battery level 2 2 bound 94450 96485 slack 5550 3515
  slower camera level 4 4 bound 32750 32960 slack 250 40
  slower diagnostics level 1 1 bound 147350 148650 slack 52650 51350
  slower lidar level 5 5 bound 18450 18570 slack 6550 6430
  slower planner level 6 6 bound 13300 13390 slack 26700 26610
  slower upload level 3 3 bound 92950 93670 slack 407050 406330

By deadlines the same tasks have other levels, and stand in another order:

  $ desk diff --prefer deadline examples/robot-mended.toml imu.toml | sed -n '4,6p'
  slower upload level 1 1 bound 147350 148650 slack 352650 351350
  slower diagnostics level 2 2 bound 84750 86725 slack 115250 113275
  slower battery level 3 3 bound 43400 43670 slack 56600 56330

A task is gone, and another comes twice as often; whose thread is at another level alone stands last:

  $ awk 'BEGIN { RS = ""; ORS = "\n\n" } !/"lidar"/' examples/robot-mended.toml | sed 's/= 33000$/= 16600/' > camera.toml
  $ desk diff examples/robot-mended.toml camera.toml
  admitted 8
  was admitted 9
  removed lidar level 5 - bound 18450 - slack 6550 -
  changed camera level 4 5 bound 32750 9600 slack 250 7000 keys period 33000 16600 deadline 33000 16600
  slower battery level 2 2 bound 94450 99600 slack 5550 400
  slower diagnostics level 1 1 bound 147350 177250 slack 52650 22750
  slower planner level 6 4 bound 13300 29900 slack 26700 10100
  slower upload level 3 3 bound 92950 98250 slack 407050 401750
  moved balance level 7 6 bound 1750 1750 slack 2250 2250
  moved imu level 8 7 bound 800 800 slack 1700 1700
  moved motor level 9 8 bound 450 450 slack 550 550

All tasks are new, by rank, which is by weights first:

  $ desk diff examples/empty-set.toml examples/shared-lock.toml
  admitted 3
  was admitted 0
  added lo level - 1 bound - 27000 slack - 73000
  added mid level - 2 bound - 7000 slack - 13000
  added hi level - 3 bound - 5000 slack - 5000

Where a set is infeasible, no level, bound or slack is; the status is that of the new set:

  $ desk diff examples/robot.toml examples/robot-mended.toml
  admitted 9
  was infeasible motor
  changed battery level - 2 bound - 94450 slack - 5550 keys section 1 bus@100:900 bus@100:300 section 2 - bus@500:300
  $ desk diff examples/robot-mended.toml examples/robot.toml
  infeasible motor
  was admitted 9
  changed battery level 2 - bound 94450 - slack 5550 - keys section 1 bus@100:300 bus@100:900 section 2 bus@500:300 -
  [3]

Each key has its word, in this order; by deadlines a weight is none:

  $ printf '[[task]]\nname = "a"\nperiod = 10000\ndeadline = 10000\ncost = 1000\n[[task]]\nname = "b"\nperiod = 20000\ndeadline = 20000\ncost = 1000\n' > old.toml
  $ printf '[[task]]\nname = "a"\nweight = 1\nperiod = 20000\ndeadline = 9000\ncost = 1500\nsection = [{ locks = ["m"], at = 0, len = 100 }]\njitter = 10\noutranks = ["b"]\n[[task]]\nname = "b"\nperiod = 20000\ndeadline = 20000\ncost = 1000\n' > new.toml
  $ desk diff old.toml new.toml | grep -o 'keys .*'
  keys weight 0 1 period 10000 20000 deadline 10000 9000 cost 1000 1500 section 1 - m@0:100 jitter 0 10 outranks - b
  (on standard error) note: lock m has one user, a
  $ desk diff --prefer deadline old.toml new.toml | grep -o 'keys .*'
  keys period 10000 20000 deadline 10000 9000 cost 1000 1500 section 1 - m@0:100 jitter 0 10 outranks - b
  (on standard error) note: lock m has one user, a

A refusal of the new set says so; the old one comes first:

  $ sed 's/^cost = 250$/cost = 0/' examples/robot-mended.toml > zero.toml
  $ desk diff examples/robot-mended.toml zero.toml
  refused: new CostZero 3
  [4]
  $ desk diff zero.toml zero.toml
  refused: CostZero 3
  [4]
  $ desk diff examples/robot-mended.toml missing.toml
  refused: ReadFailed
  [7]

Chains come behind the tasks: one whose bound is another one; then one that is gone, one that came and one that says
something else. What is past a limit is less than nothing:

  $ sed 's/cost = 600$/cost = 1600/' examples/steer.toml > slow.toml
  $ desk diff examples/steer.toml slow.toml
  admitted 4
  was admitted 4
  changed wheel level 4 4 bound 600 1600 slack 4400 3400 keys cost 600 1600
  slower log level 1 1 bound 17400 37800 slack 82600 62200
  slower plan level 2 2 bound 9200 14800 slack 10800 5200
  slower camera level 3 3 bound 2600 3600 slack 7400 6400
  slower chain steer bound 44200 49800 slack 800 -4800
  (on standard error) note: in the new set's best order a chain misses its limit: desk admit says which
  $ desk diff slow.toml examples/steer.toml | tail -n 1
  faster chain steer bound 49800 44200 slack -4800 800
  $ printf '[[chain]]\nname = "level"\ntasks = ["plan", "wheel"]\nreaction = 35000\n' > level
  $ cat examples/steer.toml level > both.toml
  $ desk diff both.toml examples/steer.toml
  admitted 4
  was admitted 4
  removed chain level bound 34200 - slack 800 -
  $ desk diff examples/steer.toml both.toml
  admitted 4
  was admitted 4
  added chain level bound - 34200 slack - 800
  $ sed 's/"camera", "plan"/"camera"/; s/reaction = 35000/age = 34000/' both.toml > others.toml
  $ desk diff both.toml others.toml
  admitted 4
  was admitted 4
  changed chain steer bound 44200 17600 slack 800 27400 keys tasks camera+plan+wheel camera+wheel
  changed chain level bound 34200 34200 slack 800 -200 keys limit 35000 34000
  (on standard error) note: in the new set's best order a chain misses its limit: desk admit says which
  $ grep -v reaction both.toml > free.toml
  $ desk diff both.toml free.toml | tail -n 2
  changed chain steer bound 44200 44200 slack 800 - keys limit 45000 -
  changed chain level bound 34200 34200 slack 800 - keys limit 35000 -

After a no there is no bound; only what chains say counts then:

  $ sed 's/cost = 600$/cost = 5000/' both.toml > full.toml
  $ desk diff both.toml full.toml > said
  [3]
  $ grep chain said
  [1]
  $ sed 's/45000/45001/' full.toml > wide.toml
  $ desk diff both.toml wide.toml > said
  [3]
  $ grep chain said
  changed chain steer bound 44200 - slack 800 - keys limit 45000 45001
