% The diagonals of a rhombus are perpendicular (classical). B and D have the same distance from A, and C completes the
% parallelogram.
point A
point B
point U
reflect D B A U
translate C A B D
prove { perpendicular A C B D }
