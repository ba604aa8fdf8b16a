% The triangles that a point P makes with the sides of ABC have areas in the ratio of its weights (August Ferdinand
% Moebius, 1827). Where the weights of A, B and C are 1 - r - s, r and s, the triangle PCA is r times ABC.
point A
point B
point C
param r
param s
weights P A B C r s
prove { equal { signed_area3 P C A } { mult { r } { signed_area3 A B C } } }
