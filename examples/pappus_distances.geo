% Pappus' theorem on four lines (Pappus of Alexandria, 4th century) for a circle: the distances of a point of the
% circle to opposite sides of an inscribed quadrilateral have equal products. Distances are areas over sides, all in
% squares.
point O
point A
oncircle B O A
oncircle C O A
oncircle D O A
oncircle X O A
prove { equal { mult { mult { mult { mult { signed_area3 X A B } { signed_area3 X A B } }
                                   { mult { signed_area3 X C D } { signed_area3 X C D } } }
                            { pythagoras_difference3 B C B } }
                     { pythagoras_difference3 D A D } }
              { mult { mult { mult { mult { signed_area3 X B C } { signed_area3 X B C } }
                                   { mult { signed_area3 X D A } { signed_area3 X D A } } }
                            { pythagoras_difference3 A B A } }
                     { pythagoras_difference3 C D C } } }
