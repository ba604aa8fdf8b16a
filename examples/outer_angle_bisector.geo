% The bisector of the outer angle (Pappus of Alexandria; Robert Simson's edition of Elements VI.3) divides the
% opposite side outside in the ratio of the other two, here in the squares of the sides.
point A
point U
param r
tratio V U A r
symmetric W V U
param p
param k
lratio B A V p
lratio C A W k
tratio T A U 1
inter D B C A T
prove { equal { mult { mult { sratio B D D C } { sratio B D D C } } { pythagoras_difference3 A C A } }
              { pythagoras_difference3 A B A } }
