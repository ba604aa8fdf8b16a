% An affine map keeps the ratio of areas (Leonhard Euler, 1748; Moebius, 1827). P is A + u AB + v AC, and its image P1
% is A1 + u A1B1 + v A1C1.
point A
point B
point C
point A1
point B1
point C1
param u
param v
lratio K A B u
pratio P K A C v
lratio L A1 B1 u
pratio P1 L A1 C1 v
prove { equal { mult { signed_area3 P B C } { signed_area3 A1 B1 C1 } }
              { mult { signed_area3 P1 B1 C1 } { signed_area3 A B C } } }
