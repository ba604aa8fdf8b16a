% The Miquel point of the sides of a cyclic quadrilateral ABCD is the inverse M, in its circle, of the intersection P
% of the diagonals (classical). Here: M is on the circle EAD, where E is the intersection of AB and CD. The figure
% begins with P and A; B has the place u + v J over PA, PC is r PA, and PD is such that PA PC = PB PD; the centre O
% has the same distance from A, B and C.
point P
point A
param u
param v
param r
lratio X P A u
tratio Y P A v
translate B P Y X
lratio C P A r
lratio D P B div { r } { sum { mult { u } { u } } { mult { v } { v } } }
lratio K P A div { sum { 1 } { r } } { 2 }
tratio W P A div { sub { sub { sum { sum { mult { u } { u } } { mult { v } { v } } } { r } } { u } }
                       { mult { u } { r } } }
                 { mult { 2 } { v } }
translate O P W K
inverse M P O A
inter E A B C D
prove { concyclic E A D M }
