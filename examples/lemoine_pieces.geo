% The parallels through the Lemoine point K to the sides AB and AC cut a piece XY from BC (Emile Lemoine, 1873): XY is
% to BC as BC^2 to the sum of the squares of the sides; so the three pieces of the sides are as the cubes of the
% sides. K has the squares of the sides as weights.
point A
point B
point C
weights K A B C div { pythagoras_difference3 C A C }
                    { sum { pythagoras_difference3 A B A }
                          { sum { pythagoras_difference3 B C B } { pythagoras_difference3 C A C } } }
                div { pythagoras_difference3 A B A }
                    { sum { pythagoras_difference3 A B A }
                          { sum { pythagoras_difference3 B C B } { pythagoras_difference3 C A C } } }
translate B1 A B K
translate C1 A C K
inter X K B1 B C
inter Y K C1 B C
prove { equal { mult { sratio X Y B C }
                     { sum { pythagoras_difference3 A B A }
                           { sum { pythagoras_difference3 B C B } { pythagoras_difference3 C A C } } } }
              { pythagoras_difference3 B C B } }
