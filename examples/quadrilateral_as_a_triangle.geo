% The parallel to AC through the corner D of a quadrilateral meets the line BC at E. The triangle ABE has the area of
% the quadrilateral ABCD (after Euclid, Elements I.37 and I.45).
point A
point B
point C
point D
pratio T D A C 1
inter E D T B C
prove { equal { signed_area3 A B E } { sum { signed_area3 A B C } { signed_area3 A C D } } }
