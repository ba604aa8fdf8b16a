% D, E and F divide the sides BC, CA, AB of a triangle in the ratios u, v, w. The triangle DEF has (uvw + 1) /
% ((u+1)(v+1)(w+1)) of the area (Moebius, 1827; both Ceva's and Menelaus' theorem are cases).
point A
point B
point C
param u
param v
param w
lratio D B C div { u } { sum { u } { 1 } }
lratio E C A div { v } { sum { v } { 1 } }
lratio F A B div { w } { sum { w } { 1 } }
prove { equal { mult { mult { mult { sum { u } { 1 } } { sum { v } { 1 } } } { sum { w } { 1 } } }
                     { signed_area3 D E F } }
              { mult { sum { mult { mult { u } { v } } { w } } { 1 } } { signed_area3 A B C } } }
