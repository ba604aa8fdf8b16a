% Carnot's theorem (Lazare Carnot, 1803): the feet D, E, F of the perpendiculars from one point P to the sides of a
% triangle satisfy BD^2 - DC^2 + CE^2 - EA^2 + AF^2 - FB^2 = 0.
point A
point B
point C
point P
foot D P B C
foot E P C A
foot F P A B
prove { equal { sum { sum { pythagoras_difference3 B D B } { pythagoras_difference3 C E C } }
                    { pythagoras_difference3 A F A } }
              { sum { sum { pythagoras_difference3 D C D } { pythagoras_difference3 E A E } }
                    { pythagoras_difference3 F B F } } }
