% The Lemoine point is not on the Euler line, but for isosceles triangles. False. K has the squares of the sides as
% weights. Counterexample: the right triangle A = (0, 0), B = (4, 0), C = (0, 2): K = (2/5, 4/5), H = (0, 0), G =
% (4/3, 2/3).
point A
point B
point C
weights K A B C div { pythagoras_difference3 C A C }
                    { sum { pythagoras_difference3 A B A }
                          { sum { pythagoras_difference3 B C B } { pythagoras_difference3 C A C } } }
                div { pythagoras_difference3 A B A }
                    { sum { pythagoras_difference3 A B A }
                          { sum { pythagoras_difference3 B C B } { pythagoras_difference3 C A C } } }
centroid G A B C
orthocenter H A B C
prove { collinear K G H }
