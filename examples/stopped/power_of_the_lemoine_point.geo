% The Lemoine point K has the same power in the three circles of Apollonius of a triangle (19th century). X and Y are
% where the tangents of the circumcircle at A and B meet the opposite sides, the centres of such circles through A and
% B. K has the squares of the sides as weights.
point O
point A
oncircle B O A
oncircle C O A
tratio T A O 1
tratio U B O 1
inter X A T B C
inter Y B U C A
weights K A B C div { pythagoras_difference3 C A C }
                    { sum { pythagoras_difference3 A B A }
                          { sum { pythagoras_difference3 B C B } { pythagoras_difference3 C A C } } }
                div { pythagoras_difference3 A B A }
                    { sum { pythagoras_difference3 A B A }
                          { sum { pythagoras_difference3 B C B } { pythagoras_difference3 C A C } } }
prove { equal { sub { pythagoras_difference3 X K X } { pythagoras_difference3 X A X } }
              { sub { pythagoras_difference3 Y K Y } { pythagoras_difference3 Y B Y } } }
