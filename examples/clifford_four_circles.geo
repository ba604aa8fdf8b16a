% Clifford's theorem on four circles through one point M (William Kingdon Clifford, 1871): they meet again in pairs in
% six points; the circles through the three points of three of them, four circles in all, meet in one point Q. The
% four are the inverses of four lines in the circle around M through R. F is the focus of the parabola that touches
% these; with FE from the focus to the vertex, and FG as long and perpendicular to it, the tangents with the numbers a
% and b meet at A, at (1 - ab) FE + (a + b) FG from F, and the centre C of the circle of the tangents a, b, c is at (1
% - ab - bc - ca) / 2 FE + (a + b + c - abc) / 2 FG. Its inverse has the centre N, and Q and P are the inverses of F
% and A. Here: NP = NQ; so N, which is the same for the other two points, is the centre of a circle through Q.
point F
point E
tratio G F E 1
param a
param b
param c
lratio A0 F E sub { 1 } { mult { a } { b } }
pratio A A0 F G sum { a } { b }
lratio C0 F E div { sub { 1 } { sum { mult { a } { b } } { sum { mult { b } { c } } { mult { c } { a } } } } } { 2 }
pratio C C0 F G div { sub { sum { a } { sum { b } { c } } } { mult { a } { mult { b } { c } } } } { 2 }
point M
point R
inverse P A M R
inverse Q F M R
lratio N M C div { pythagoras_difference3 M R M }
                 { sub { pythagoras_difference3 M C M } { pythagoras_difference3 C F C } }
prove { same_length N P N Q }
