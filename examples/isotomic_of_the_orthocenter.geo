% The isotomic conjugate of the orthocenter is the Lemoine point K of the anticomplementary triangle (19th century):
% the line from A to K meets BC at the reflection X of the foot D of the altitude in the midpoint of BC. The
% anticomplementary triangle A1B1C1 has twice as long sides, whose squares are the weights of K.
point A
point B
point C
foot D A B C
translate X D C B
translate A1 A B C
translate B1 B C A
translate C1 C A B
weights K A1 B1 C1 div { pythagoras_difference3 C A C }
                       { sum { pythagoras_difference3 A B A }
                             { sum { pythagoras_difference3 B C B } { pythagoras_difference3 C A C } } }
                   div { pythagoras_difference3 A B A }
                       { sum { pythagoras_difference3 A B A }
                             { sum { pythagoras_difference3 B C B } { pythagoras_difference3 C A C } } }
prove { collinear A K X }
