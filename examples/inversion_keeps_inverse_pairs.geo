% Inversion keeps inverse points (19th century): P and Q are inverse in the circle around M through A. Inversion in
% the circle around O through R takes this circle to the one around N through A1, and P and Q to two points that are
% inverse in it.
point O
point R
point M
point A
point P
inverse Q P M A
lratio N O M div { pythagoras_difference3 O R O }
                 { sub { pythagoras_difference3 O M O } { pythagoras_difference3 M A M } }
inverse A1 A O R
inverse P1 P O R
inverse Q1 Q O R
inverse X P1 N A1
prove { identical X Q1 }
