% The lines from the corners to the touching points of the incircle meet; the incenter first.
point I
point B
point C
reflect C1 C B I
reflect B1 B C I
inter A B C1 C B1
foot D I B C
foot E I C A
foot F I A B
inter G A D B E
prove { collinear C F G }
