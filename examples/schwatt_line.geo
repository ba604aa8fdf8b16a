% The midpoint of a side, the midpoint of the altitude on it and the Lemoine point are on one line (a Schwatt line;
% Isaac Schwatt, 19th century). The Lemoine point has the squares of the sides as weights.
point A
point B
point C
midpoint M B C
foot D A B C
midpoint N A D
lratio X B C div { pythagoras_difference3 A B A }
                 { sum { pythagoras_difference3 A B A } { pythagoras_difference3 A C A } }
lratio K A X div { sum { pythagoras_difference3 A B A } { pythagoras_difference3 A C A } }
                 { sum { sum { pythagoras_difference3 A B A } { pythagoras_difference3 A C A } }
                       { pythagoras_difference3 B C B } }
prove { collinear M N K }
