% Brahmagupta's formula (7th century) without roots: 16 times the square of the area of a cyclic quadrilateral with
% the sides a, b, c, d is 4 (ab + cd)^2 - (a^2 + b^2 - c^2 - d^2)^2. Here 8abcd is alone on one side, and both sides
% are squared.
point O
point A
oncircle B O A
oncircle C O A
oncircle D O A
prove { equal { mult { sum { sub { sub { mult { mult { 16 } { sum { signed_area3 A B C } { signed_area3 A C D } } }
                                              { sum { signed_area3 A B C } { signed_area3 A C D } } }
                                       { mult { pythagoras_difference3 A B A } { pythagoras_difference3 B C B } } }
                                 { mult { pythagoras_difference3 C D C } { pythagoras_difference3 D A D } } }
                           { div { mult { sub { sub { sum { pythagoras_difference3 A B A }
                                                          { pythagoras_difference3 B C B } }
                                                    { pythagoras_difference3 C D C } }
                                              { pythagoras_difference3 D A D } }
                                        { sub { sub { sum { pythagoras_difference3 A B A }
                                                          { pythagoras_difference3 B C B } }
                                                    { pythagoras_difference3 C D C } }
                                              { pythagoras_difference3 D A D } } }
                                 { 4 } } }
                     { sum { sub { sub { mult { mult { 16 } { sum { signed_area3 A B C } { signed_area3 A C D } } }
                                              { sum { signed_area3 A B C } { signed_area3 A C D } } }
                                       { mult { pythagoras_difference3 A B A } { pythagoras_difference3 B C B } } }
                                 { mult { pythagoras_difference3 C D C } { pythagoras_difference3 D A D } } }
                           { div { mult { sub { sub { sum { pythagoras_difference3 A B A }
                                                          { pythagoras_difference3 B C B } }
                                                    { pythagoras_difference3 C D C } }
                                              { pythagoras_difference3 D A D } }
                                        { sub { sub { sum { pythagoras_difference3 A B A }
                                                          { pythagoras_difference3 B C B } }
                                                    { pythagoras_difference3 C D C } }
                                              { pythagoras_difference3 D A D } } }
                                 { 4 } } } }
              { mult { mult { mult { mult { 4 } { pythagoras_difference3 A B A } } { pythagoras_difference3 B C B } }
                            { pythagoras_difference3 C D C } }
                     { pythagoras_difference3 D A D } } }
