% The parallels to the sides of a triangle through the Lemoine point K meet the sides in six points of one circle
% (Emile Lemoine, 1873). Here in the form that AX AZ = AY AU for the four of them on AB and AC; K has the squares of
% the sides as weights.
point A
point B
point C
lratio D B C div { pythagoras_difference3 A B A }
                 { sum { pythagoras_difference3 A B A } { pythagoras_difference3 A C A } }
lratio K A D div { sum { pythagoras_difference3 A B A } { pythagoras_difference3 A C A } }
                 { sum { sum { pythagoras_difference3 A B A } { pythagoras_difference3 A C A } }
                       { pythagoras_difference3 B C B } }
translate X1 B C K
translate Y1 C A K
translate Z1 A B K
inter X A B K X1
inter Z A B K Y1
inter Y A C K X1
inter U A C K Z1
prove { equal { pythagoras_difference3 X A Z } { pythagoras_difference3 Y A U } }
