% The Taylor circle (Henry Martyn Taylor, 1882): the feet of the altitudes are projected onto the other two sides; the
% six points are on one circle. Here in the form that AX AX1 = AY AY1, the power of A, for the four of them on AB and
% AC.
point A
point B
point C
foot D A B C
foot E B C A
foot F C A B
foot X D A B
foot X1 E A B
foot Y D A C
foot Y1 F A C
prove { equal { pythagoras_difference3 X A X1 } { pythagoras_difference3 Y A Y1 } }
