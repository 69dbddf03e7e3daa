gets stdin l; puts $l
