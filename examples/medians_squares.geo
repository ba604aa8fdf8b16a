% Four times the squares of the three medians are three times the squares of the three sides (classical).
point A
point B
point C
midpoint D B C
midpoint E C A
midpoint F A B
prove { equal { mult { 4 }
                     { sum { sum { pythagoras_difference3 A D A } { pythagoras_difference3 B E B } }
                           { pythagoras_difference3 C F C } } }
              { mult { 3 }
                     { sum { sum { pythagoras_difference3 A B A } { pythagoras_difference3 B C B } }
                           { pythagoras_difference3 C A C } } } }
