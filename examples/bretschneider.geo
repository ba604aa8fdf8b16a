% Sixteen times the square of the area of a quadrilateral is 4 e^2 f^2 - (a^2 - b^2 + c^2 - d^2)^2, with the sides a,
% b, c, d and the diagonals e, f (Carl Anton Bretschneider, 1842; Christian von Staudt, 1842).
point A
point B
point C
point D
prove { equal { mult { 16 }
                     { mult { sum { signed_area3 A B C } { signed_area3 A C D } }
                            { sum { signed_area3 A B C } { signed_area3 A C D } } } }
              { sub { mult { pythagoras_difference3 A C A } { pythagoras_difference3 B D B } }
                    { mult { sub { sum { sub { div { pythagoras_difference3 A B A } { 2 } }
                                             { div { pythagoras_difference3 B C B } { 2 } } }
                                       { div { pythagoras_difference3 C D C } { 2 } } }
                                 { div { pythagoras_difference3 D A D } { 2 } } }
                           { sub { sum { sub { div { pythagoras_difference3 A B A } { 2 } }
                                             { div { pythagoras_difference3 B C B } { 2 } } }
                                       { div { pythagoras_difference3 C D C } { 2 } } }
                                 { div { pythagoras_difference3 D A D } { 2 } } } } } }
