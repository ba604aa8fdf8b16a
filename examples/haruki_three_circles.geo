% Haruki's theorem on three circles (Hiroshi Haruki, 20th century; Ross Honsberger, Episodes in Nineteenth and
% Twentieth Century Euclidean Geometry, 1995): where three circles meet two by two in A, A1, in B, B1 and in C, C1,
% the six segments satisfy AB1 BC1 CA1 = BA1 CB1 AC1, here in squares. The figure begins with the point X where the
% common chords meet; XA XA1 = XB XB1 = XC XC1 = k.
point X
point A
point B
point C
param k
lratio A1 X A div { k } { pythagoras_difference3 A X A }
lratio B1 X B div { k } { pythagoras_difference3 B X B }
lratio C1 X C div { k } { pythagoras_difference3 C X C }
prove { equal { mult { mult { pythagoras_difference3 A B1 A } { pythagoras_difference3 B C1 B } }
                     { pythagoras_difference3 C A1 C } }
              { mult { mult { pythagoras_difference3 B A1 B } { pythagoras_difference3 C B1 C } }
                     { pythagoras_difference3 A C1 A } } }
