% Two points X and Y move on two lines AB and AC, each with a constant speed. The centre of the circle AXY moves on a
% line, so all these circles pass through a second fixed point (classical; the centre of the spiral similarity of the
% two motions). AX is r, s or t times AB, and AY is m + n r, m + n s or m + n t times AC.
point A
point B
point C
param m
param n
param r
param s
param t
lratio X A B r
lratio X1 A B s
lratio X2 A B t
lratio Y A C sum { m } { mult { n } { r } }
lratio Y1 A C sum { m } { mult { n } { s } }
lratio Y2 A C sum { m } { mult { n } { t } }
circumcenter U A X Y
circumcenter V A X1 Y1
circumcenter W A X2 Y2
prove { collinear U V W }
