% A segment halved by a perpendicular (International Mathematical Olympiad 1994, problem 2): ABC is an isosceles
% triangle, M is the midpoint of the base BC, and O is the point of the line AM with OB perpendicular to AB. Q is a
% point of BC; the perpendicular to OQ at Q meets AB at E and AC at F. Then QE = QF. MA is h and MO is 1/h times MC,
% on different sides.
point M
point C
symmetric B C M
param h
tratio A M C h
tratio O M C div { -1 } { h }
param q
lratio Q M C q
tratio S Q O 1
inter E Q S A B
inter F Q S A C
prove { midpoint Q E F }
