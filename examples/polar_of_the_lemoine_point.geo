% The polar of the Lemoine point K in the circumcircle is the Lemoine axis (19th century): where the tangent at A
% meets BC, at X, the vectors from the circumcenter to X and K have the square of the radius as their product. K has
% the squares of the sides as weights.
point O
point A
oncircle B O A
oncircle C O A
tratio T A O 1
inter X A T B C
weights K A B C div { pythagoras_difference3 C A C }
                    { sum { pythagoras_difference3 A B A }
                          { sum { pythagoras_difference3 B C B } { pythagoras_difference3 C A C } } }
                div { pythagoras_difference3 A B A }
                    { sum { pythagoras_difference3 A B A }
                          { sum { pythagoras_difference3 B C B } { pythagoras_difference3 C A C } } }
prove { equal { pythagoras_difference3 X O K } { pythagoras_difference3 O A O } }
