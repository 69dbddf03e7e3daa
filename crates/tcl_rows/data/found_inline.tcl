lsearch -all -inline {ab cd ae} a*
