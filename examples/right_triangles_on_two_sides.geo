% On the sides CA and CB of a triangle isosceles triangles with right angles at their tops P and Q stand outside. With
% the midpoint of AB the tops make an isosceles triangle with a right angle (classical).
point A
point B
point C
midpoint K C A
midpoint L C B
tratio P K C -1
tratio Q L C 1
midpoint M A B
tratio X M P 1
prove { identical X Q }
