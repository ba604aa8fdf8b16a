% A quadrilateral has the area of a triangle with two sides equal and parallel to the diagonals (classical): E is as
% far from A as D is from B, in the same direction, and the area is that of ACE.
point A
point B
point C
point D
translate E B D A
prove { equal { signed_area3 A C E } { sum { signed_area3 A B C } { signed_area3 A C D } } }
