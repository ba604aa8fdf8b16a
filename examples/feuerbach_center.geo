% The incircle with the centre I and the radius r touches BC at D, with BD = y and DC = z; A is the intersection of
% the tangents from B and C. The point N that is (z - y)(yz - 3r^2) / 4(yz - r^2) along BC from D and ((yz - r^2)^2 +
% 6 r^2 yz - r^2 y^2 - r^2 z^2) / 8r(yz - r^2) above it is the centre of the nine-point circle (for Feuerbach's
% theorem). DU is the unit. Here: N has the same distance from the midpoints of BC and AB.
point D
point U
param r
param y
param z
lratio B D U neg { y }
lratio C D U z
lratio K D U div { mult { mult { r } { r } } { sub { y } { z } } } { sub { mult { y } { z } } { mult { r } { r } } }
tratio L D U div { mult { mult { mult { 2 } { r } } { y } } { z } } { sub { mult { y } { z } } { mult { r } { r } } }
translate A D L K
midpoint M B C
midpoint P A B
lratio S D U div { mult { sub { z } { y } } { sub { mult { y } { z } } { mult { mult { 3 } { r } } { r } } } }
                 { mult { 4 } { sub { mult { y } { z } } { mult { r } { r } } } }
tratio T D U div { sub { sub { sum { mult { sub { mult { y } { z } } { mult { r } { r } } }
                                          { sub { mult { y } { z } } { mult { r } { r } } } }
                                   { mult { mult { mult { mult { 6 } { r } } { r } } { y } } { z } } }
                             { mult { mult { mult { r } { r } } { y } } { y } } }
                       { mult { mult { mult { r } { r } } { z } } { z } } }
                 { mult { mult { 8 } { r } } { sub { mult { y } { z } } { mult { r } { r } } } }
translate N D T S
prove { same_length N M N P }
