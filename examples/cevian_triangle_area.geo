% Lines through one point from the corners of a triangle, with the weights u, v and w, meet the sides at D, E and F.
% The triangle DEF has 2uvw / ((u+v)(v+w)(w+u)) of the area (classical).
point A
point B
point C
param u
param v
param w
lratio D B C div { w } { sum { v } { w } }
lratio E C A div { u } { sum { u } { w } }
lratio F A B div { v } { sum { u } { v } }
prove { equal { mult { mult { mult { sum { u } { v } } { sum { v } { w } } } { sum { w } { u } } }
                     { signed_area3 D E F } }
              { mult { mult { mult { mult { 2 } { u } } { v } } { w } } { signed_area3 A B C } } }
