% Steiner's theorem on isogonal lines (Jakob Steiner, 19th century): where AD and AE are reflections of one another in
% the bisector AU, and D and E are on BC, the ratios have the product BD/DC BE/EC = AB^2 / AC^2. V and W are at equal
% distances from A on the sides; AB is p times AV and AC is k times AW.
point A
point U
param r
tratio V U A r
symmetric W V U
param s
tratio S U A s
symmetric T S U
param p
param k
lratio B A V p
lratio C A W k
inter D B C A S
inter E B C A T
prove { equal { mult { mult { sratio B D D C } { sratio B E E C } } { mult { k } { k } } } { mult { p } { p } } }
