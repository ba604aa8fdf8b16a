% Inversion takes a circle to a circle, but not its centre to the centre. False. The circle around M through A has an
% image around N. Counterexample: O = (0, 0) and the radius 1, the circle through (1, 0) and (3, 0) with the centre M
% = (2, 0): the image passes through (1, 0) and (1/3, 0) and has the centre N = (2/3, 0), and M goes to (1/2, 0).
point O
point R
point M
point A
lratio N O M div { pythagoras_difference3 O R O }
                 { sub { pythagoras_difference3 O M O } { pythagoras_difference3 M A M } }
inverse M1 M O R
prove { identical N M1 }
