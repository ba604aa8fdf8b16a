% Two circles and the chords of contact (International Mathematical Olympiad 1983, problem 2): the outer common
% tangents of two circles that meet at A touch them at P1, Q1 and P2, Q2; M1 and M2 are the midpoints of P1Q1 and
% P2Q2. The angles O1AO2 and M1AM2 are equal. The figure begins with the intersection X of the tangents, A and O1. XO2
% is XO1 times XA^2 over the power of X, which makes A a point of both circles; M1 and M2 are the inverses of X.
point X
point A
point O1
lratio O2 X O1 div { pythagoras_difference3 X A X }
                   { sub { pythagoras_difference3 X O1 X } { pythagoras_difference3 O1 A O1 } }
inverse M1 X O1 A
inverse M2 X O2 A
prove { equal { mult { signed_area3 O1 A O2 } { pythagoras_difference3 M1 A M2 } }
              { mult { signed_area3 M1 A M2 } { pythagoras_difference3 O1 A O2 } } }
