% The parallels to the sides of a triangle through the Lemoine point K meet the sides in six points of one circle
% (Emile Lemoine, 1873). Here four of them; K has the squares of the sides as weights.
point A
point B
point C
lratio D B C div { pythagoras_difference3 A B A }
                 { sum { pythagoras_difference3 A B A } { pythagoras_difference3 A C A } }
lratio K A D div { sum { pythagoras_difference3 A B A } { pythagoras_difference3 A C A } }
                 { sum { sum { pythagoras_difference3 A B A } { pythagoras_difference3 A C A } }
                       { pythagoras_difference3 B C B } }
line a B C
line b C A
line c A B
parallel p K a
parallel q K b
parallel r K c
intersec X p c
intersec Y p b
intersec Z q c
intersec U r b
prove { concyclic X Y Z U }
