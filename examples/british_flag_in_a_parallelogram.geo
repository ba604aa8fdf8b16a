% PA^2 + PC^2 = PB^2 + PD^2 needs a rectangle, not any parallelogram. False. Counterexample: A = P = (0, 0), B = (2,
% 0), C = (3, 1), D = (1, 1): 10 and 6.
point A
point B
point C
point P
translate D B C A
prove { equal { sum { pythagoras_difference3 P A P } { pythagoras_difference3 P C P } }
              { sum { pythagoras_difference3 P B P } { pythagoras_difference3 P D P } } }
