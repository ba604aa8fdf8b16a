% The British flag theorem: PA^2 + PC^2 = PB^2 + PD^2 for each point P and each rectangle ABCD.
point A
point B
param r
tratio D A B r
translate C A B D
point P
prove { equal { sum { pythagoras_difference3 P A P } { pythagoras_difference3 P C P } }
              { sum { pythagoras_difference3 P B P } { pythagoras_difference3 P D P } } }
