% The Lemoine point L of a right triangle is the midpoint of the altitude on the hypotenuse (classical). It has the
% squares of the sides as weights.
point C
point A
param r
tratio B C A r
foot D C A B
midpoint K C D
weights L A B C div { pythagoras_difference3 C A C }
                    { sum { pythagoras_difference3 A B A }
                          { sum { pythagoras_difference3 B C B } { pythagoras_difference3 C A C } } }
                div { pythagoras_difference3 A B A }
                    { sum { pythagoras_difference3 A B A }
                          { sum { pythagoras_difference3 B C B } { pythagoras_difference3 C A C } } }
prove { identical K L }
