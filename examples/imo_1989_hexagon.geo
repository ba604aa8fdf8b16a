% The excenters and a hexagon (International Mathematical Olympiad 1989, problem 2): the bisectors of a triangle ABC
% meet in I and meet its circumcircle again at K, L and M. The triangle XYZ of the excenters has twice the area of the
% hexagon AMBKCL: K, L and M are the midpoints of XI, YI and ZI, and A, B and C are on the sides of XYZ. For this A, B
% and C may be any points of the sides, and I any point.
point X
point Y
point Z
online A Y Z
online B Z X
online C X Y
point I
midpoint K X I
midpoint L Y I
midpoint M Z I
prove { equal { mult { 2 }
                     { sum { sum { sum { signed_area3 A M B } { signed_area3 B K C } } { signed_area3 C L A } }
                           { signed_area3 A B C } } }
              { signed_area3 X Y Z } }
