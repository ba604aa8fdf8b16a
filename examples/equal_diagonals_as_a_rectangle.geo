% A quadrilateral with equal diagonals need not be a rectangle. False. The diagonal BD is AC, moved to B and reflected
% in a line BU. Counterexample: A = (0, 0), B = (1, -1), C = (4, 0), D = (1, 3): AC and BD are 4, and AB BC as vectors
% is 2.
point A
point B
point C
point U
translate B1 A C B
reflect D B1 B U
prove { perpendicular A B B C }
