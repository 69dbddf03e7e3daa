dict incr e n; puts $e
