string trim xxaxx x
