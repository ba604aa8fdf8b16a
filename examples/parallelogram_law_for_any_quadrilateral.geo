% The squares of the sides add up to those of the diagonals for parallelograms alone. False. Counterexample: A = (0,
% 0), B = (4, 0), C = (4, 4), D = (0, 2): 56 and 52.
point A
point B
point C
point D
prove { equal { sum { sum { sum { pythagoras_difference3 A B A } { pythagoras_difference3 B C B } }
                          { pythagoras_difference3 C D C } }
                    { pythagoras_difference3 D A D } }
              { sum { pythagoras_difference3 A C A } { pythagoras_difference3 B D B } } }
