% Triangles with a common angle at A are to one another as the products of the sides at A (Euclid, Elements VI.23; the
% co-angle theorem).
point A
point B
point C
param u
param v
lratio D A B u
lratio E A C v
prove { equal { signed_area3 A D E } { mult { mult { u } { v } } { signed_area3 A B C } } }
