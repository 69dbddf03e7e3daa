string range hello 1 end-1
