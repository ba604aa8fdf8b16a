% The opposite sides of a cyclic quadrilateral meet at E and F: the square of EF is the sum of the powers of E and F
% (classical). The figure begins with E, A and D; the power of E is EA EB = ED EC, that of F is FA FD.
point E
point A
point D
param p
lratio B E A p
lratio C E D div { mult { p } { pythagoras_difference3 E A E } } { pythagoras_difference3 E D E }
inter F A D B C
prove { equal { pythagoras_difference3 E F E }
              { sum { pythagoras_difference3 A E B } { pythagoras_difference3 A F D } } }
