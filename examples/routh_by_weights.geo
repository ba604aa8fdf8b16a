% Routh's triangle by weights (Edward Routh, 1896): lines from the corners divide the opposite sides in the ratios u, v
% and w. They make a triangle with corners of the weights uv, 1, u; v, vw, 1 and 1, w, wu, and the area is
% (uvw - 1)^2 / ((uv + u + 1)(vw + v + 1)(wu + w + 1)) of the whole.
point A
point B
point C
param u
param v
param w
weights X A B C div { 1 } { sum { mult { u } { v } } { sum { u } { 1 } } }
                div { u } { sum { mult { u } { v } } { sum { u } { 1 } } }
weights Y A B C div { mult { v } { w } } { sum { mult { v } { w } } { sum { v } { 1 } } }
                div { 1 } { sum { mult { v } { w } } { sum { v } { 1 } } }
weights Z A B C div { w } { sum { mult { w } { u } } { sum { w } { 1 } } }
                div { mult { w } { u } } { sum { mult { w } { u } } { sum { w } { 1 } } }
prove { equal { mult { mult { mult { sum { mult { u } { v } } { sum { u } { 1 } } }
                                   { sum { mult { v } { w } } { sum { v } { 1 } } } }
                            { sum { mult { w } { u } } { sum { w } { 1 } } } } { signed_area3 X Y Z } }
              { mult { mult { sub { mult { mult { u } { v } } { w } } { 1 } }
                            { sub { mult { mult { u } { v } } { w } } { 1 } } } { signed_area3 A B C } } }
