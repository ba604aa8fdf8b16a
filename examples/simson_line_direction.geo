% The perpendicular from a point P of the circumcircle to the side BC meets the circle again at U; the line AU is
% parallel to the Simson line of P (19th century). The figure begins with P and its foot X: XB and XC are b and c
% times as long as PX, so U has b c PX as its distance from X, by the power of X. A is the second point of a line BT
% on the circle.
point X
point P
param b
param c
tratio B X P b
tratio C X P c
lratio U X P mult { b } { c }
midpoint M B C
midpoint N P U
translate O X M N
point T
second A B T O
foot Y P C A
prove { parallel A U X Y }
