% Two triangles that agree in two sides and an angle need not be congruent, if the angle is not between the sides.
% False. C and C1 are points of one line through A at equal distances from B. Counterexample: A = (0, 0), B = (3, 2),
% C = (2, 0), C1 = (4, 0): AB, the angle at A and BC = BC1 agree, but AC and AC1 do not.
point A
point B
point C
foot F B A C
symmetric C1 C F
prove { same_length A C A C1 }
