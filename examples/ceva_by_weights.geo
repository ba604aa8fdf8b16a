% Ceva's theorem by weights (August Ferdinand Moebius, 1827): the lines from the corners of a triangle through the point
% with the weights u, v, w cut the sides in the ratios w : v, u : w and v : u, and their product is 1.
point A
point B
point C
assume not_collinear A B C
param u
param v
param w
weights P A B C div { v } { sum { u } { sum { v } { w } } }
                div { w } { sum { u } { sum { v } { w } } }
inter D B C A P
inter E C A B P
inter F A B C P
prove { equal { mult { mult { sratio A F F B } { sratio B D D C } } { sratio C E E A } } { 1 } }
