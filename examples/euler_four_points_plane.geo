% For any four points the products AB CD, AC DB and AD BC of vectors add up to 0 (classical; that the altitudes of a
% triangle meet follows). The vectors CD, DB and BC are laid off at A.
point A
point B
point C
point D
translate E C D A
translate F D B A
translate G B C A
prove { equal { sum { sum { pythagoras_difference3 B A E } { pythagoras_difference3 C A F } }
                    { pythagoras_difference3 D A G } }
              { 0 } }
