% Three lines on a radical axis (International Mathematical Olympiad 1995, problem 1): A, B, C, D are four points of a
% line in this order. The circles with the diameters AC and BD meet on a line that cuts AD at Z, and P is a point of
% this line. CP meets the circle over AC again at M, and BP meets the circle over BD again at N. Then AM, DN and the
% line ZP meet in one point. The figure begins with Z and P; ZA ZC = ZB ZD.
point Z
point P
param a
param c
param b
tratio A Z P a
tratio C Z P c
tratio B Z P b
tratio D Z P div { mult { a } { c } } { b }
foot M A C P
foot N D B P
inter X A M Z P
prove { collinear D N X }
