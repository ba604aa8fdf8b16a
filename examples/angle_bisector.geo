% The bisector of an angle (Euclid, Elements VI.3) divides the opposite side in the ratio of the other two. V and W
% are at equal distances from A on the two sides; AB is p times AV and AC is k times AW.
point A
point U
param r
tratio V U A r
symmetric W V U
param p
param k
lratio B A V p
lratio C A W k
inter D B C A U
prove { equal { mult { k } { sratio B D D C } } { p } }
