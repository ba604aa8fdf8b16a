% The diagonals of a parallelogram are perpendicular only where it is a rhombus. False. Counterexample: the rectangle
% A = (0, 0), B = (2, 0), C = (2, 1), D = (0, 1).
point A
point B
point C
translate D B C A
prove { perpendicular A C B D }
