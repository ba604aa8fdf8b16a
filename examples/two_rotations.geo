% Two rotations about A and B, one after another, are a rotation about the point C of the triangle whose angles at A
% and B are half of the two angles (Leonhard Euler, 1776). The half angles have the tangents s and t, and C has the
% same distance from P and from its image.
point A
point B
point P
param s
param t
lratio U A P div { sub { 1 } { mult { s } { s } } } { sum { 1 } { mult { s } { s } } }
tratio V A P div { mult { 2 } { s } } { sum { 1 } { mult { s } { s } } }
translate Q A U V
lratio W B Q div { sub { 1 } { mult { t } { t } } } { sum { 1 } { mult { t } { t } } }
tratio X B Q div { mult { 2 } { t } } { sum { 1 } { mult { t } { t } } }
translate R B W X
tratio D A B neg { s }
translate E A D B
tratio F B A t
translate G B F A
inter C A E B G
prove { same_length C P C R }
