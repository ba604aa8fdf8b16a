% Feuerbach's theorem (Karl Wilhelm Feuerbach, 1822): the nine-point circle touches the incircle. The incircle with
% the centre I and the radius r touches BC at D, with BD = y and DC = z; the place of the centre N of the nine-point
% circle is that of feuerbach_center.geo, and M is the midpoint of BC. In squares, for the radius n = NM: (NI^2 - n^2
% - r^2)^2 = 4 n^2 r^2. DU is the unit.
point D
point U
param r
param y
param z
tratio I D U r
lratio B D U neg { y }
lratio C D U z
midpoint M B C
lratio S D U div { mult { sub { z } { y } } { sub { mult { y } { z } } { mult { mult { 3 } { r } } { r } } } }
                 { mult { 4 } { sub { mult { y } { z } } { mult { r } { r } } } }
tratio T D U div { sub { sub { sum { mult { sub { mult { y } { z } } { mult { r } { r } } }
                                          { sub { mult { y } { z } } { mult { r } { r } } } }
                                   { mult { mult { mult { mult { 6 } { r } } { r } } { y } } { z } } }
                             { mult { mult { mult { r } { r } } { y } } { y } } }
                       { mult { mult { mult { r } { r } } { z } } { z } } }
                 { mult { mult { 8 } { r } } { sub { mult { y } { z } } { mult { r } { r } } } }
translate N D T S
prove { equal { mult { sub { sub { pythagoras_difference3 N I N } { pythagoras_difference3 N M N } }
                           { pythagoras_difference3 I D I } }
                     { sub { sub { pythagoras_difference3 N I N } { pythagoras_difference3 N M N } }
                           { pythagoras_difference3 I D I } } }
              { mult { mult { 4 } { pythagoras_difference3 N M N } } { pythagoras_difference3 I D I } } }
