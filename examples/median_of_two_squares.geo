% Squares stand outside on the sides AB and AC of a triangle, with the corners P and Q next to A. The median from A is
% perpendicular to PQ and half as long (classical; Vecten, 1817): AE is equal and parallel to PQ, and a quarter-turn
% takes it to AF, of which the midpoint of BC is the midpoint.
point A
point B
point C
tratio P A B -1
tratio Q A C 1
midpoint M B C
translate E P Q A
tratio F A E -1
prove { midpoint M A F }
