% The converse of Pascal's theorem for a circle (William Braikenridge and Colin Maclaurin, 1733): where the opposite
% sides of a hexagon with five corners A to E on a circle meet in three points X, Y, Z of one line, the sixth corner F
% is on the circle. The line is HU, with the foot H of the centre; with HU as the unit X, Y, Z are at p, q, r from H
% and have the powers p^2 + v, q^2 + v and r^2 + v. The figure begins with them and with A; B is found by the power of
% X, C by that of Y, D by that of Z, and E by that of X again. F is the intersection of YE and ZA. Here: YE YF is the
% power of Y.
point H
point U
param v
param p
param q
param r
lratio X H U p
lratio Y H U q
lratio Z H U r
point A
lratio B X A div { mult { sum { mult { p } { p } } { v } } { pythagoras_difference3 H U H } }
                 { pythagoras_difference3 X A X }
lratio C Y B div { mult { sum { mult { q } { q } } { v } } { pythagoras_difference3 H U H } }
                 { pythagoras_difference3 Y B Y }
lratio D Z C div { mult { sum { mult { r } { r } } { v } } { pythagoras_difference3 H U H } }
                 { pythagoras_difference3 Z C Z }
lratio E X D div { mult { sum { mult { p } { p } } { v } } { pythagoras_difference3 H U H } }
                 { pythagoras_difference3 X D X }
inter F Y E Z A
prove { equal { pythagoras_difference3 E Y F }
              { mult { sum { mult { q } { q } } { v } } { pythagoras_difference3 H U H } } }
