% The Brocard circle (Henri Brocard, 1881): the circle over the segment from the circumcenter O to the Lemoine point K
% passes through the Brocard points; here the angle at the first one, Q, where the lines from A and B meet that make
% the Brocard angle with AB and BC. K has the squares of the sides as weights.
point A
point B
point C
circumcenter O A B C
weights K A B C div { pythagoras_difference3 C A C }
                    { sum { pythagoras_difference3 A B A }
                          { sum { pythagoras_difference3 B C B } { pythagoras_difference3 C A C } } }
                div { pythagoras_difference3 A B A }
                    { sum { pythagoras_difference3 A B A }
                          { sum { pythagoras_difference3 B C B } { pythagoras_difference3 C A C } } }
tratio U A B div { mult { 8 } { signed_area3 A B C } }
                 { sum { sum { pythagoras_difference3 A B A } { pythagoras_difference3 B C B } }
                       { pythagoras_difference3 C A C } }
translate U1 A B U
tratio V B C div { mult { 8 } { signed_area3 A B C } }
                 { sum { sum { pythagoras_difference3 A B A } { pythagoras_difference3 B C B } }
                       { pythagoras_difference3 C A C } }
translate V1 B C V
inter Q A U1 B V1
prove { perpendicular O Q Q K }
