% The centres of the circles of four lines are on one circle with their common point F (Jakob Steiner, 1828). Three of
% these circles pass through two of the points X, Y and Z of one line, and through F. NF is the unit and perpendicular
% to this line, where X, Y, Z are at x, y, z from N; so the centre U of FXY is (x + y) / 2 along the line from N and
% (1 + xy) / 2 above it; V and W are the centres of FXZ and FYZ.
point N
point F
param x
param y
param z
tratio T N F 1
lratio U0 N T div { sum { x } { y } } { 2 }
pratio U U0 N F div { sum { 1 } { mult { x } { y } } } { 2 }
lratio V0 N T div { sum { x } { z } } { 2 }
pratio V V0 N F div { sum { 1 } { mult { x } { z } } } { 2 }
lratio W0 N T div { sum { y } { z } } { 2 }
pratio W W0 N F div { sum { 1 } { mult { y } { z } } } { 2 }
prove { concyclic F U V W }
