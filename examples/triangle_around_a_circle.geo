% A circle with the centre I and the radius r touches BC at D, with BD = y and DC = z. The tangents from B and C meet
% at A, whose foot on BC is r^2 (y - z) / (yz - r^2) beyond D and whose height is 2 r y z / (yz - r^2) (classical). DU
% is the unit. Here: the circle touches CA, for the foot of I on CA is at the distance r.
point D
point U
param r
param y
param z
tratio I D U r
lratio B D U neg { y }
lratio C D U z
lratio K D U div { mult { mult { r } { r } } { sub { y } { z } } } { sub { mult { y } { z } } { mult { r } { r } } }
tratio L D U div { mult { mult { mult { 2 } { r } } { y } } { z } } { sub { mult { y } { z } } { mult { r } { r } } }
translate A D L K
foot E I C A
prove { same_length E I I D }
