% Similar triangles are to one another as the squares on their sides (Euclid, Elements VI.19). C and F have the same
% place over AB and DE, by the numbers u and v.
point A
point B
point D
point E
param u
param v
lratio K A B u
tratio L A B v
translate C A K L
lratio M D E u
tratio N D E v
translate F D M N
prove { equal { mult { signed_area3 A B C } { pythagoras_difference3 D E D } }
              { mult { signed_area3 D E F } { pythagoras_difference3 A B A } } }
