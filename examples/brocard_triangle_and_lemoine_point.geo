% On the side BC stands an isosceles triangle whose angles at the base are the Brocard angle, with the tangent 4 S /
% (a^2 + b^2 + c^2). Its top X, a corner of the first Brocard triangle, is on the parallel to BC through the Lemoine
% point K (Henri Brocard, 1881), which has the squares of the sides as weights.
point A
point B
point C
weights K A B C div { pythagoras_difference3 C A C }
                    { sum { pythagoras_difference3 A B A }
                          { sum { pythagoras_difference3 B C B } { pythagoras_difference3 C A C } } }
                div { pythagoras_difference3 A B A }
                    { sum { pythagoras_difference3 A B A }
                          { sum { pythagoras_difference3 B C B } { pythagoras_difference3 C A C } } }
midpoint M B C
tratio X M C div { mult { 8 } { signed_area3 A B C } }
                 { sum { sum { pythagoras_difference3 A B A } { pythagoras_difference3 B C B } }
                       { pythagoras_difference3 C A C } }
prove { parallel K X B C }
