% BC^2 = AB^2 + AC^2 - 2 AB AD for the foot D of the altitude from C on AB; with + in place of - it is false.
% Counterexample: A = (0, 0), B = (4, 0), C = (1, 3), D = (1, 0): BC^2 is 18, and 16 + 10 + 8 is 34.
point A
point B
point C
foot D C A B
prove { equal { pythagoras_difference3 B C B }
              { sum { sum { pythagoras_difference3 A B A } { pythagoras_difference3 A C A } }
                    { mult { 2 } { pythagoras_difference3 B A D } } } }
