% The three outer centres of similitude of three circles are on one line and have no orthocenter. Impossible.
point L
point M
point N
param a
param b
param c
lratio X L M div { a } { sub { a } { b } }
lratio Y M N div { b } { sub { b } { c } }
lratio Z N L div { c } { sub { c } { a } }
orthocenter H X Y Z
prove { perpendicular X H Y Z }
