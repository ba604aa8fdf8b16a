% The cross axis of two projective ranges (Jakob Steiner, 1832; Pappus' theorem is behind it): the points A, B, C, D
% of a line and A1, B1, C1, D1 of another line have equal cross-ratios. The lines AB1 and BA1, AC1 and CA1, AD1 and
% DA1 meet in three points of one line. C and D are at c and d times the way from A to B, C1 at r times that from A1
% to B1, and D1 is where the cross-ratios are equal.
point A
point B
point A1
point B1
param c
param d
param r
lratio C A B c
lratio D A B d
lratio C1 A1 B1 r
lratio D1 A1 B1 div { mult { mult { r } { d } } { sub { 1 } { c } } }
                    { sum { mult { mult { r } { d } } { sub { 1 } { c } } }
                          { mult { mult { sub { 1 } { r } } { sub { 1 } { d } } } { c } } }
inter X A B1 B A1
inter Y A C1 C A1
inter Z A D1 D A1
prove { collinear X Y Z }
