% Squares stand outside on the sides AB and AC of a triangle, with the corners P and Q next to A. The segments BQ and
% CP are equal and perpendicular, for a quarter-turn about A takes one to the other (classical). Here perpendicular.
point A
point B
point C
tratio P A B -1
tratio Q A C 1
prove { perpendicular P C B Q }
