% The diagonals of a quadrilateral cut it into four triangles; opposite ones have areas with equal products
% (classical).
point A
point B
point C
point D
inter P A C B D
prove { equal { mult { signed_area3 P A B } { signed_area3 P C D } }
              { mult { signed_area3 P B C } { signed_area3 P D A } } }
