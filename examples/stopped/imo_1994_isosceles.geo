% A segment halved by a perpendicular (International Mathematical Olympiad 1994, problem 2): ABC is an isosceles
% triangle, M is the midpoint of the base BC, and O is the point of the line AM with OB perpendicular to AB. Q is a
% point of BC; the perpendicular to OQ at Q meets AB at E and AC at F. Then QE = QF.
point B
point C
midpoint M B C
param h
tratio A M C h
tratio T B A 1
inter O A M B T
online Q B C
tratio S Q O 1
inter E Q S A B
inter F Q S A C
prove { midpoint Q E F }
