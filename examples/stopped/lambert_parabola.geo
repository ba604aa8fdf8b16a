% The circle around the triangle of three tangents of a parabola passes through the focus (Johann Heinrich Lambert,
% 1761). A tangent is the perpendicular bisector between the focus F and a point of the directrix DE.
point F
point D
point E
online X D E
med a F X
med b F D
med c F E
intersec A b c
intersec B c a
intersec C a b
prove { concyclic A B C F }
