% Pythagoras' theorem (Euclid, Elements I.47): AB^2 = AD^2 + BD^2, where D is the foot of the perpendicular from A.
point A
point B
point C
foot D A B C
prove { equal { pythagoras_difference3 A B A } { sum { pythagoras_difference3 A D A } { pythagoras_difference3 B D B } } }
