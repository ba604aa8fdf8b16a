% The area of a quadrilateral with perpendicular diagonals, as of a kite, is half of their product (classical): four
% times its square is the product of the squares of the diagonals. The diagonals meet at P.
point P
point A
param r
tratio B P A r
online C P A
online D P B
prove { equal { mult { mult { 16 } { sum { signed_area3 A B C } { signed_area3 A C D } } }
                     { sum { signed_area3 A B C } { signed_area3 A C D } } }
              { mult { pythagoras_difference3 A C A } { pythagoras_difference3 B D B } } }
