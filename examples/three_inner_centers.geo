% The three outer centres of similitude of three circles are on one line, and so are one outer and two inner ones, but
% not the three inner ones: they are the feet of three lines through a point. False. Counterexample: three equal
% circles, for which the centres are the midpoints of the sides.
point L
point M
point N
param a
param b
param c
lratio X L M div { a } { sum { a } { b } }
lratio Y M N div { b } { sum { b } { c } }
lratio Z N L div { c } { sum { c } { a } }
prove { collinear X Y Z }
