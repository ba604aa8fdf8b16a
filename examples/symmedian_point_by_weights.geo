% The point K with the squares of the sides as weights is the symmedian point (Emile Lemoine, 1873; Ernst Wilhelm Grebe,
% 1847): the line from A to it goes through the point T where the tangents of the circumcircle at B and C meet.
point A
point B
point C
weights K A B C div { pythagoras_difference3 C A C }
                    { sum { pythagoras_difference3 A B A }
                          { sum { pythagoras_difference3 B C B } { pythagoras_difference3 C A C } } }
                div { pythagoras_difference3 A B A }
                    { sum { pythagoras_difference3 A B A }
                          { sum { pythagoras_difference3 B C B } { pythagoras_difference3 C A C } } }
circumcenter O A B C
midpoint M B C
inverse T M O B
prove { collinear A K T }
