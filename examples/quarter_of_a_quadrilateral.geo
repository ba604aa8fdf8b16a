% The opposite sides AB and CD of a quadrilateral meet at E. The triangle of E and the midpoints of the diagonals has
% a quarter of the area (classical).
point A
point B
point C
point D
inter E A B C D
midpoint M A C
midpoint N B D
prove { equal { mult { 4 } { signed_area3 E M N } } { neg { sum { signed_area3 A B C } { signed_area3 A C D } } } }
