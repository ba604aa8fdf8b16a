% The inverse of a parabola in its focus F is a cardioid, whose chords through F all have the same length (18th
% century). The parabola has FE as the distance from F to the directrix; a chord through F has the ends P and Q, at (1
% - t^2) / 2t^2 FE + 1/t FG and (t^2 - 1) / 2 FE - t FG from F, for a square with the sides FE and FG. Here: P1Q1 FE =
% 2 FR^2.
point F
point E
tratio G F E 1
param t
lratio U F E div { sub { 1 } { mult { t } { t } } } { mult { mult { 2 } { t } } { t } }
pratio P U F G div { 1 } { t }
lratio V F E div { sub { mult { t } { t } } { 1 } } { 2 }
pratio Q V F G neg { t }
point R
inverse P1 P F R
inverse Q1 Q F R
prove { equal { mult { pythagoras_difference3 P1 Q1 P1 } { pythagoras_difference3 F E F } }
              { mult { 4 } { mult { pythagoras_difference3 F R F } { pythagoras_difference3 F R F } } } }
