% Grebe's triangle (Ernst Wilhelm Grebe, 1847): squares stand outside on the sides of a triangle, and their outer
% sides make a second triangle. The lines between corresponding corners, such as A and A1, meet in the Lemoine point
% K, which has the squares of the sides as weights.
point A
point B
point C
weights K A B C div { pythagoras_difference3 C A C }
                    { sum { pythagoras_difference3 A B A }
                          { sum { pythagoras_difference3 B C B } { pythagoras_difference3 C A C } } }
                div { pythagoras_difference3 A B A }
                    { sum { pythagoras_difference3 A B A }
                          { sum { pythagoras_difference3 B C B } { pythagoras_difference3 C A C } } }
tratio P A B -1
tratio Q A C 1
translate P1 A B P
translate Q1 A C Q
inter A1 P P1 Q Q1
prove { collinear A K A1 }
