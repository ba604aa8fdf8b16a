% Heron's formula (Heron of Alexandria, 1st century) without roots: 16 S^2 = 4 a^2 c^2 - (a^2 + c^2 - b^2)^2 for the
% area S and the sides a, b, c of a triangle.
point A
point B
point C
prove { equal { mult { 16 } { mult { signed_area3 A B C } { signed_area3 A B C } } }
              { sub { mult { pythagoras_difference3 A B A } { pythagoras_difference3 C B C } }
                    { mult { pythagoras_difference3 A B C } { pythagoras_difference3 A B C } } } }
