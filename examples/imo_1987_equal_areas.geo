% A kite with the area of the triangle (International Mathematical Olympiad 1987, problem 2): the bisector of the
% angle at A of a triangle meets BC at L and the circumcircle again at N; K and M are the feet of L on AB and AC. The
% quadrilateral AKNM has the area of the triangle. AU is the bisector, and V and W are at equal distances from A on
% the sides.
point A
point U
param r
tratio V U A r
symmetric W V U
param p
param k
lratio B A V p
lratio C A W k
inter L B C A U
circumcenter O A B C
second N A U O
foot K L A B
foot M L A C
prove { equal { sum { signed_area3 A K N } { signed_area3 A N M } } { signed_area3 A B C } }
