% A point P is joined to the midpoints of the sides of a quadrilateral: two opposite parts have together half of the
% area (classical).
point A
point B
point C
point D
point P
midpoint K A B
midpoint L B C
midpoint M C D
midpoint N D A
prove { equal { mult { 2 }
                     { sum { sum { sum { signed_area3 P N A } { signed_area3 P A K } } { signed_area3 P L C } }
                           { signed_area3 P C M } } }
              { sum { signed_area3 A B C } { signed_area3 A C D } } }
