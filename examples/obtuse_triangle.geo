% The law of cosines in the form of Euclid, Elements II.12 and II.13: BC^2 = AB^2 + AC^2 - 2 AB AD, where D is the
% foot of the altitude from C on AB and the product AB AD has its sign.
point A
point B
point C
foot D C A B
prove { equal { pythagoras_difference3 B C B }
              { sub { sum { pythagoras_difference3 A B A } { pythagoras_difference3 A C A } }
                    { mult { 2 } { pythagoras_difference3 B A D } } } }
