% The diagonals of a trapezoid with the parallel sides AB and CD meet at P. The triangles PBC and PDA at the legs have
% the same area (classical). DC is r times AB.
point A
point B
point D
param r
pratio C D A B r
inter P A C B D
prove { equal { signed_area3 P B C } { signed_area3 P D A } }
