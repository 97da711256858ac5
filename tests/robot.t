From a no to the node: nine tasks of a robot that share three mutexes. What stands in the way, and what mends it:

  $ desk admit examples/robot.toml
  infeasible motor
  [3]
  $ desk explain examples/robot.toml
  infeasible motor
  conflict motor
  motor 1050 of 1000
    cost 150
    blocked 900 by battery section 1 lock bus
  load 883516
  1 upload 147350 of 500000
  2 diagnostics 84750 of 200000
  3 battery 43400 of 100000
  4 planner 32750 of 40000
  5 camera 16800 of 33000
  6 lidar 7900 of 25000
  7 balance 2750 of 4000
  8 imu 1550 of 2500
  9 motor misses 1000 needs 1050
    cost 150
    blocked 900 by battery section 1 lock bus
  [3]
  $ desk limits examples/robot.toml
  infeasible motor
  battery section 1 len 900 - 850
  motor deadline 1000 - 1050 with period 1050
  lock bus len 900 - 850
  all - 952 motor
  [3]

With two sections of 0.3 ms in the place of one it is admitted; how far each number may go:

  $ desk admit examples/robot-mended.toml --prefer deadline
  admitted 9
  1 upload 147350
  2 diagnostics 84750
  3 battery 43400
  4 planner 32750
  5 camera 14750
  6 lidar 6900
  7 balance 1750
  8 imu 800
  9 motor 450
  $ desk limits examples/robot-mended.toml --prefer deadline | tail -n 7
  motor cost 150 157 157
  motor period 1000 1000 1000 by 1000
  motor deadline 1000 450 450
  motor jitter 0 550 550
  motor section 1 len 60 100 100 by cost
  motor slack 550
  all 1007 1007 planner

What to set on the node, also where it isn't to change more than it must:

  $ desk settings examples/robot-mended.toml --prefer deadline > settings
  $ tail -n 4 settings
  thread motor 9
  mutex log 4
  mutex bus 9
  mutex pose 8
  $ grep -v camera settings > running
  $ desk settings examples/robot-mended.toml --keep running | grep -e camera -e planner
  thread camera 4
  thread planner 5
  # moved planner 4 5

Priorities that a node has:

  $ sed '/^mutex/d; s/balance 7/balance 10/' settings > today
  $ desk judge examples/robot-mended.toml today | grep misses
  misses motor
  8 motor misses 1000 needs 1350 at 9
