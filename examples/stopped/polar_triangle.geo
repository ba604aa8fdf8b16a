% The corners of a triangle and the poles of the opposite sides in a circle are joined by three lines through one
% point (Michel Chasles, 19th century). The pole of a side is the inverse of the foot of the perpendicular from the
% centre.
point O
point R
point A
point B
point C
foot D O B C
foot E O C A
foot F O A B
inverse X D O R
inverse Y E O R
inverse Z F O R
inter S A X B Y
prove { collinear C Z S }
