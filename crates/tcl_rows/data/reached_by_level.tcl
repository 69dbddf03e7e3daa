proc h {} {uplevel 1 {set z 7}}; proc k {} {set z 1; h; return $z}; puts [k]
