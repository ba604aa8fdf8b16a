% The square of the bisector AD is the product of the sides AB and AC less that of the parts BD and DC (classical). V
% and W are at equal distances from A on the sides, AB = p AV and AC = k AW.
point A
point U
param r
tratio V U A r
symmetric W V U
param p
param k
lratio B A V p
lratio C A W k
inter D B C A U
prove { equal { pythagoras_difference3 A D A }
              { sum { mult { mult { p } { k } } { pythagoras_difference3 A V A } } { pythagoras_difference3 B D C } } }
