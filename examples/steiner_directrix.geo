% The orthocenter of the triangle of three tangents of a parabola is on the directrix (Jakob Steiner, 1827). The feet
% D, E and G of the focus F on the tangents are on the tangent at the vertex; the directrix is parallel to it, through
% the reflection of F in D.
point F
point D
point E
online G D E
symmetric F1 F D
tratio D1 D F 1
tratio E1 E F 1
tratio G1 G F 1
inter A E E1 G G1
inter B G G1 D D1
translate U F D A % the altitudes are parallel to FD and FE
translate V F E B
inter H A U B V
prove { parallel F1 H D E }
