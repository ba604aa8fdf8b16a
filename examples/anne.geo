% Anne's theorem (Pierre-Leon Anne): for a point P of the line through the midpoints of the diagonals of a
% quadrilateral, the triangles on opposite sides have the same sum of areas.
point A
point B
point C
point D
midpoint M A C
midpoint N B D
online P M N
prove { equal { sum { signed_area3 P A B } { signed_area3 P C D } } { sum { signed_area3 P B C } { signed_area3 P D A } } }
