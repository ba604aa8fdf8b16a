% Routh's theorem (Edward Routh, 1896): lines from the corners divide the opposite sides in the ratios u, v and w. The
% triangle that they make has (uvw - 1)^2 / ((uv + u + 1)(vw + v + 1)(wu + w + 1)) of the area.
point A
point B
point C
param u
param v
param w
lratio D B C div { u } { sum { u } { 1 } }
lratio E C A div { v } { sum { v } { 1 } }
lratio F A B div { w } { sum { w } { 1 } }
inter X A D B E
inter Y B E C F
inter Z C F A D
prove { equal { mult { mult { mult { sum { mult { u } { v } } { sum { u } { 1 } } }
                                   { sum { mult { v } { w } } { sum { v } { 1 } } } }
                            { sum { mult { w } { u } } { sum { w } { 1 } } } } { signed_area3 X Y Z } }
              { mult { mult { sub { mult { mult { u } { v } } { w } } { 1 } }
                            { sub { mult { mult { u } { v } } { w } } { 1 } } } { signed_area3 A B C } } }
