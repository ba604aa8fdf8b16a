% The foot Y of the perpendicular from the focus of a parabola to a tangent is on the tangent at the vertex
% (classical). The tangent is the perpendicular bisector between the focus F and X of the directrix DE; the vertex V
% is half-way from F to the directrix.
point F
point D
point E
online X D E
foot K F D E
midpoint V F K
med t F X
perp n F t
intersec Y t n
prove { parallel V Y D E }
