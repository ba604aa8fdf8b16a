% In a right triangle the median to the hypotenuse is half of it (Euclid, Elements III.31).
point C
point A
param r
tratio B C A r
midpoint M A B
prove { equal { mult { 4 } { pythagoras_difference3 C M C } } { pythagoras_difference3 A B A } }
