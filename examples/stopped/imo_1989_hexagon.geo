% The excenters and a hexagon (International Mathematical Olympiad 1989, problem 2): the bisectors of a triangle ABC
% meet its circumcircle again at K, L and M. The triangle of the excenters has twice the area of the hexagon AMBKCL.
% The figure begins with the excenters X, Y, Z: A, B and C are the feet of the altitudes, the incenter I is the
% orthocenter, and K, L and M are the midpoints of XI, YI and ZI.
point X
point Y
point Z
foot A X Y Z
foot B Y Z X
foot C Z X Y
inter I X A Y B
midpoint K X I
midpoint L Y I
midpoint M Z I
prove { equal { mult { 2 }
                     { sum { sum { sum { signed_area3 A M B } { signed_area3 B K C } } { signed_area3 C L A } }
                           { signed_area3 A B C } } }
              { signed_area3 X Y Z } }
