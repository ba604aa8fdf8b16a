% Isogonal conjugates by weights (19th century): where P has the weights u, v, w and Q has a^2/u, b^2/v, c^2/w, with
% the sides a, b, c of the triangle, the angles BAP and QAC are equal; so the lines from each corner to P and Q are
% reflections of one another in the bisector. The weights of Q are multiplied by uvw.
point A
point B
point C
param u
param v
param w
weights P A B C div { v } { sum { u } { sum { v } { w } } } div { w } { sum { u } { sum { v } { w } } }
weights Q A B C div { mult { mult { w } { u } } { pythagoras_difference3 C A C } }
                    { sum { mult { mult { v } { w } } { pythagoras_difference3 B C B } }
                          { sum { mult { mult { w } { u } } { pythagoras_difference3 C A C } }
                                { mult { mult { u } { v } } { pythagoras_difference3 A B A } } } }
                div { mult { mult { u } { v } } { pythagoras_difference3 A B A } }
                    { sum { mult { mult { v } { w } } { pythagoras_difference3 B C B } }
                          { sum { mult { mult { w } { u } } { pythagoras_difference3 C A C } }
                                { mult { mult { u } { v } } { pythagoras_difference3 A B A } } } }
prove { equal { mult { signed_area3 B A P } { pythagoras_difference3 Q A C } }
              { mult { signed_area3 Q A C } { pythagoras_difference3 B A P } } }
