% Two points on two circles (International Mathematical Olympiad 1979, problem 3): two circles around O and L meet at
% A. From A two points X and Y set out in the same sense and go around the circles in the same time. There is a point
% P that is always as far from X as from Y: the reflection of A in the perpendicular bisector of OL. The tangent of
% half the angle is t.
point O
point L
point A
param t
lratio X1 O A div { sub { 1 } { mult { t } { t } } } { sum { 1 } { mult { t } { t } } }
tratio X2 O A div { mult { 2 } { t } } { sum { 1 } { mult { t } { t } } }
translate X O X1 X2
lratio Y1 L A div { sub { 1 } { mult { t } { t } } } { sum { 1 } { mult { t } { t } } }
tratio Y2 L A div { mult { 2 } { t } } { sum { 1 } { mult { t } { t } } }
translate Y L Y1 Y2
midpoint M O L
tratio N M O 1
reflect P A M N
prove { same_length P X P Y }
