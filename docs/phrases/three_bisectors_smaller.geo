% proved: the touching points first: AI halves the angle EAF
point I
point D
oncircle E I D
oncircle F I D
midpoint K E F
inverse A K I D
prove { equal { mult { signed_area3 E A I } { pythagoras_difference3 I A F } } { mult { signed_area3 I A F } { pythagoras_difference3 E A I } } }
