% AB^2 + AC^2 = BC^2 needs a right angle at A. False. Counterexample: A = (0, 0), B = (4, 0), C = (1, 3): 26 and 18.
point A
point B
point C
prove { equal { sum { pythagoras_difference3 A B A } { pythagoras_difference3 A C A } }
              { pythagoras_difference3 B C B } }
