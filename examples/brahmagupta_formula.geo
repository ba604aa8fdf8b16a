% Brahmagupta's formula (7th century) without roots: 16 times the square of the area of a cyclic quadrilateral with
% the sides a, b, c, d is 4 (ab + cd)^2 - (a^2 + b^2 - c^2 - d^2)^2. The figure begins with the intersection P of the
% diagonals; PC is r PA, and PA PC = PB PD. The triangles at P are similar in pairs, so that abcd in the first square
% is a^2 b^2 DP/PB.
point P
point A
point B
param r
lratio C P A r
lratio D P B div { mult { r } { pythagoras_difference3 P A P } } { pythagoras_difference3 P B P }
prove { equal { sum { mult { mult { 16 } { sum { signed_area3 A B C } { signed_area3 A C D } } }
                           { sum { signed_area3 A B C } { signed_area3 A C D } } }
                    { div { mult { sub { sub { sum { pythagoras_difference3 A B A } { pythagoras_difference3 B C B } }
                                             { pythagoras_difference3 C D C } }
                                       { pythagoras_difference3 D A D } }
                                 { sub { sub { sum { pythagoras_difference3 A B A } { pythagoras_difference3 B C B } }
                                             { pythagoras_difference3 C D C } }
                                       { pythagoras_difference3 D A D } } }
                          { 4 } } }
              { sum { sum { mult { pythagoras_difference3 A B A } { pythagoras_difference3 B C B } }
                          { mult { pythagoras_difference3 C D C } { pythagoras_difference3 D A D } } }
                    { mult { mult { mult { 2 } { pythagoras_difference3 A B A } } { pythagoras_difference3 B C B } }
                           { sratio D P P B } } } }
