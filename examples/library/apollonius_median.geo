% Apollonius' theorem (named after Apollonius of Perga; also Pappus): AB^2 + AC^2 = 2 AM^2 + 2 BM^2 for the midpoint M
% of BC.
point A
point B
point C
midpoint M B C
prove { equal { sum { pythagoras_difference3 A B A } { pythagoras_difference3 A C A } }
              { mult { 2 } { sum { pythagoras_difference3 A M A } { pythagoras_difference3 B M B } } } }
