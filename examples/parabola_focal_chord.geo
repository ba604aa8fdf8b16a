% The points of contact of two perpendicular tangents of a parabola are on one line with the focus (classical). X and
% Y on the directrix are seen from the focus F under a right angle; the tangents are the perpendicular bisectors of FX
% and FY, the points of contact are on the perpendiculars to the directrix at X and Y.
point F
point X
point Y0
line d X Y0
line x F X
perp y F x
intersec Y y d
perp u X d
perp v Y d
med s F X
med t F Y
intersec P u s
intersec Q v t
prove { collinear P F Q }
