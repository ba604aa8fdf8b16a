% In a hexagon whose opposite sides are parallel, the two triangles of every other corner have the same area
% (classical).
point A
point B
point C
point E
param u
pratio D E A B u
line a B C
line b C D
parallel f E a
parallel g A b
intersec F f g
prove { equal { signed_area3 A C E } { signed_area3 B D F } }
