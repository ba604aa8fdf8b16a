% Where Q is on the polar of P, the circle over the diameter PQ cuts the circle of the polar at right angles
% (classical): with the midpoint M of PQ and the radius r = OR, OM^2 = r^2 + MP^2.
point O
point R
point P
inverse U P O R
tratio T U O 1 % UT is the polar of P
online Q U T
midpoint M P Q
prove { equal { pythagoras_difference3 O M O }
              { sum { pythagoras_difference3 O R O } { pythagoras_difference3 M P M } } }
