% Two lines meet at O. Where A, B, C of the one and A1, B1, C1 of the other have the same cross-ratio with O, the
% lines AA1, BB1 and CC1 meet in one point (Jakob Steiner, 1832). B, C and B1 are at b, c and d times the way from O
% to A and to A1, and C1 is where the cross-ratios are equal.
point O
point A
point A1
param b
param c
param d
lratio B O A b
lratio C O A c
lratio B1 O A1 d
lratio C1 O A1 div { mult { mult { d } { c } } { sub { 1 } { b } } }
                   { sum { mult { mult { d } { c } } { sub { 1 } { b } } }
                         { mult { mult { b } { sub { 1 } { c } } } { sub { 1 } { d } } } }
inter X A A1 B B1
prove { collinear C C1 X }
