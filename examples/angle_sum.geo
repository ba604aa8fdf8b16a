% The sum of the angles of a triangle (Euclid, Elements I.32) is two right angles: so the products of two of their
% cotangents add up to 1. The cotangent of an angle is a Pythagoras difference over four areas.
point A
point B
point C
prove { equal { sum { sum { mult { pythagoras_difference3 C A B } { pythagoras_difference3 A B C } }
                          { mult { pythagoras_difference3 A B C } { pythagoras_difference3 B C A } } }
                    { mult { pythagoras_difference3 B C A } { pythagoras_difference3 C A B } } }
              { mult { mult { 16 } { signed_area3 A B C } } { signed_area3 A B C } } }
