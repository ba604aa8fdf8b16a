% The altitude of a right triangle (Euclid, Elements VI.8): its square is the product of the parts of the hypotenuse.
point C
point A
param r
tratio B C A r
foot D C A B
prove { equal { pythagoras_difference3 C D C } { neg { pythagoras_difference3 A D B } } }
