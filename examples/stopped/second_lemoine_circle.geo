% The second Lemoine circle (Emile Lemoine, 1873): the antiparallels to the sides through the Lemoine point K meet the
% sides in six points that are equally far from it. Here two of them, X on CA and Y on BC; antiparallel to a side is
% the line of the feet of the two altitudes on the others. K has the squares of the sides as weights.
point A
point B
point C
weights K A B C div { pythagoras_difference3 C A C }
                    { sum { pythagoras_difference3 A B A }
                          { sum { pythagoras_difference3 B C B } { pythagoras_difference3 C A C } } }
                div { pythagoras_difference3 A B A }
                    { sum { pythagoras_difference3 A B A }
                          { sum { pythagoras_difference3 B C B } { pythagoras_difference3 C A C } } }
foot D A B C
foot E B C A
foot F C A B
translate X1 E F K
translate Y1 D F K
inter X K X1 A C
inter Y K Y1 B C
prove { same_length K X K Y }
