% For three lines AD, BE, CF through a point P of a triangle, AP/PD = x, BP/PE = y and CP/PF = z satisfy xyz = x + y +
% z + 2 (Leonhard Euler, 1780). P has the weights u, v, w.
point A
point B
point C
param u
param v
param w
lratio D B C div { w } { sum { v } { w } }
lratio E C A div { u } { sum { u } { w } }
lratio F A B div { v } { sum { u } { v } }
lratio P A D div { sum { v } { w } } { sum { sum { u } { v } } { w } }
prove { equal { mult { mult { sratio A P P D } { sratio B P P E } } { sratio C P P F } }
              { sum { sum { sum { sratio A P P D } { sratio B P P E } } { sratio C P P F } } { 2 } } }
