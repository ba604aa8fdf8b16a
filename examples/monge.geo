% Monge's theorem (Gaspard Monge, 18th century): the external centres of similitude of three circles with centres L,
% M, N and radii a, b, c are on one line.
point L
point M
point N
param a
param b
param c
lratio X L M div { a } { sub { a } { b } }
lratio Y M N div { b } { sub { b } { c } }
lratio Z N L div { c } { sub { c } { a } }
prove { collinear X Y Z }
