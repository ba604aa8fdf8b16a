% The sides of the triangle of the feet of the altitudes meet the sides of the triangle on a line that is
% perpendicular to the Euler line (classical).
point A
point B
point C
foot D A B C
foot E B C A
foot F C A B
inter X E F B C
inter Y F D C A
centroid G A B C
orthocenter H A B C
prove { perpendicular X Y G H }
