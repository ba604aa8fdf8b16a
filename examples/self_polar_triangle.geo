% The intersections of the opposite sides and of the diagonals of a cyclic quadrilateral make a triangle whose
% orthocenter is the centre of the circle (Henri Brocard, 19th century). The figure begins with the intersection P of
% the diagonals and with A; B has the place u + v J over PA, PC is r PA, and PD is such that PA PC = PB PD; the centre
% O has the same distance from A, B and C. Here: OP is perpendicular to EF.
point P
point A
param u
param v
param r
lratio X P A u
tratio Y P A v
translate B P Y X
lratio C P A r
lratio D P B div { r } { sum { mult { u } { u } } { mult { v } { v } } }
lratio K P A div { sum { 1 } { r } } { 2 }
tratio W P A div { sub { sub { sum { sum { mult { u } { u } } { mult { v } { v } } } { r } } { u } }
                       { mult { u } { r } } }
                 { mult { 2 } { v } }
translate O P W K
inter E A B C D
inter F A D B C
prove { perpendicular O P E F }
