% Two lines from A that meet BC at equal distances from its midpoint do not make equal angles with the sides: isotomic
% lines are not isogonal. False. Counterexample: A = (0, 0), B = (2, 0), C = (0, 4), D = (1, 2), the midpoint, which
% is its own image E: the tangents of BAD and EAC are 2 and 1/2.
point A
point B
point C
online D B C
translate E D B C
prove { equal { mult { signed_area3 B A D } { pythagoras_difference3 E A C } }
              { mult { signed_area3 E A C } { pythagoras_difference3 B A D } } }
