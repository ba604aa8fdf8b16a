% The angles over one chord are equal for points of one circle, and not for any two points. False. Counterexample: A =
% (-1, 0), B = (1, 0), C = (0, 1), D = (0, 2): the angle at C is right, that at D is not.
point A
point B
point C
point D
prove { equal { mult { signed_area3 A B C } { pythagoras_difference3 A D B } }
              { mult { signed_area3 A B D } { pythagoras_difference3 A C B } } }
