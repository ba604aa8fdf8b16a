% On the side BC of a triangle are the midpoint M, the point D of the incircle, the end X of the bisector from A and
% the foot K of the altitude: MD^2 = MX MK (a step of a classical proof of Feuerbach's theorem, by inversion around M
% through D). The incircle has the centre I and the radius r, BD = y and DC = z, and DU is the unit.
point D
point U
param r
param y
param z
tratio I D U r
lratio B D U neg { y }
lratio C D U z
lratio K D U div { mult { mult { r } { r } } { sub { y } { z } } } { sub { mult { y } { z } } { mult { r } { r } } }
tratio L D U div { mult { mult { mult { 2 } { r } } { y } } { z } } { sub { mult { y } { z } } { mult { r } { r } } }
translate A D L K
midpoint M B C
inter X A I B C
prove { equal { pythagoras_difference3 X M K } { pythagoras_difference3 M D M } }
