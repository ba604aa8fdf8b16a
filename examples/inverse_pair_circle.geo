% Each circle through a point P and its inverse Q cuts the circle of inversion at right angles (19th century): the
% centre is M, and OM^2 = r^2 + MP^2.
point O
point R
point P
inverse Q P O R
midpoint N P Q
param s
tratio M N P s
prove { equal { pythagoras_difference3 O M O }
              { sum { pythagoras_difference3 O R O } { pythagoras_difference3 M P M } } }
