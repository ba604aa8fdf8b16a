% proved: a side of a triangle is twice as long as its midline
point A
point B
point P
midpoint C P A
midpoint D P B
prove { equal { pythagoras_difference3 A B A } { mult { 4 } { pythagoras_difference3 C D C } } }
