% The Lemoine axis is perpendicular to the line from the circumcenter to the Lemoine point K, the Brocard axis (19th
% century). X and Y are where the tangents at A and B meet the opposite sides; K has the squares of the sides as
% weights.
point O
point A
oncircle B O A
oncircle C O A
tratio T A O 1
tratio U B O 1
inter X A T B C
inter Y B U C A
weights K A B C div { pythagoras_difference3 C A C }
                    { sum { pythagoras_difference3 A B A }
                          { sum { pythagoras_difference3 B C B } { pythagoras_difference3 C A C } } }
                div { pythagoras_difference3 A B A }
                    { sum { pythagoras_difference3 A B A }
                          { sum { pythagoras_difference3 B C B } { pythagoras_difference3 C A C } } }
prove { perpendicular X Y O K }
