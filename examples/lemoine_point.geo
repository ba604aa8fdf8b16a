% The symmedians of a triangle meet in one point (Emile Lemoine, 1873; Ernst Wilhelm Grebe, 1847). A symmedian divides
% the opposite side in the ratio of the squares of the other two sides.
point A
point B
point C
lratio D B C div { pythagoras_difference3 A B A }
                 { sum { pythagoras_difference3 A B A } { pythagoras_difference3 A C A } }
lratio E C A div { pythagoras_difference3 B C B }
                 { sum { pythagoras_difference3 B C B } { pythagoras_difference3 B A B } }
lratio F A B div { pythagoras_difference3 C A C }
                 { sum { pythagoras_difference3 C A C } { pythagoras_difference3 C B C } }
inter K A D B E
prove { collinear C F K }
