% The symmedian (Emile Lemoine, 19th century): T is the pole of the chord BC of a circle, where the tangents at B and C
% meet. For a point A of the circle, AT divides BC in the ratio of the squares of the sides: BX AC^2 = XC AB^2.
point B
point C
midpoint M B C
param r
tratio T M B r
tratio O M B div { -1 } { r } % BO is perpendicular to BT
oncircle A O B
inter X B C A T
prove { equal { mult { sratio B X X C } { pythagoras_difference3 A C A } } { pythagoras_difference3 A B A } }
