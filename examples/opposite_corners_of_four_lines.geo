% The products of the distances from the Miquel point F of four lines to the opposite corners of their quadrilateral
% are equal (19th century). F is the focus of the parabola that touches the four lines. With FE from the focus to the
% vertex, and FG as long and perpendicular to it, the tangents with the numbers s and t meet at (1 - st) FE + (s + t)
% FG from F. A and B are the intersections of the first two and of the last two lines, C and D those of the first and
% third, second and fourth.
point F
point E
tratio G F E 1
param a
param b
param c
param d
lratio A0 F E sub { 1 } { mult { a } { b } }
pratio A A0 F G sum { a } { b }
lratio B0 F E sub { 1 } { mult { c } { d } }
pratio B B0 F G sum { c } { d }
lratio C0 F E sub { 1 } { mult { a } { c } }
pratio C C0 F G sum { a } { c }
lratio D0 F E sub { 1 } { mult { b } { d } }
pratio D D0 F G sum { b } { d }
prove { equal { mult { pythagoras_difference3 F A F } { pythagoras_difference3 F B F } }
              { mult { pythagoras_difference3 F C F } { pythagoras_difference3 F D F } } }
