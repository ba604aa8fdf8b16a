% proved: AD halves the angle BAC, where C is on the mirror image of the line AB in AD
point A
point B
point D
reflect X B A D
online C A X
prove { equal { mult { signed_area3 B A D } { pythagoras_difference3 D A C } } { mult { signed_area3 D A C } { pythagoras_difference3 B A D } } }
