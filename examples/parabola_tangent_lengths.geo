% R is where two tangents of a parabola meet, with the points of contact P and Q. For the focus F the square of FR is
% FP FQ (classical): here in squares. O is the vertex, OE the tangent there, and OF is k times as long; the point with
% the number t is 2 k t OE + t^2 OF.
point O
point E
param k
param s
param t
tratio F O E k
lratio U O E mult { mult { 2 } { k } } { s }
pratio P U O F mult { s } { s }
lratio V O E mult { mult { 2 } { k } } { t }
pratio Q V O F mult { t } { t }
lratio W O E mult { k } { sum { s } { t } }
pratio R W O F mult { s } { t }
prove { equal { mult { pythagoras_difference3 F R F } { pythagoras_difference3 F R F } }
              { mult { pythagoras_difference3 F P F } { pythagoras_difference3 F Q F } } }
