% Similar figures stand on the sides of a right triangle; that on the hypotenuse has the sum of the areas of the other
% two (Euclid, Elements VI.31). Here triangles: their tops have the place u + v J over the sides, where J is a
% quarter-turn.
point C
point A
param h
tratio B C A h
param u
param v
lratio K C A u
tratio K1 C A v
translate X C K1 K
lratio L B C u
tratio L1 B C v
translate Y B L1 L
lratio M B A u
tratio M1 B A v
translate Z B M1 M
prove { equal { sum { signed_area3 C A X } { signed_area3 B C Y } } { signed_area3 B A Z } }
