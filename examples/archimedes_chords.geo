% Archimedes, Book of Lemmas, 11: where two perpendicular chords AB and CD of a circle meet at P, the squares of PA, PB,
% PC and PD add up to the square of the diameter.
point P
point A
param r
tratio C P A r
online B P A
circumcenter O A B C
second D C P O
prove { equal { sum { sum { pythagoras_difference3 P A P } { pythagoras_difference3 P B P } }
                    { sum { pythagoras_difference3 P C P } { pythagoras_difference3 P D P } } }
              { mult { 4 } { pythagoras_difference3 O A O } } }
