% The corners of Tucker's hexagon are on one circle (Robert Tucker, 19th century). Here four neighbours: PQ is
% antiparallel to BC, QR parallel to AB, and RS antiparallel to CA; antiparallel to a side is the line of the feet of
% the two altitudes on the others.
point A
point B
point C
foot D A B C
foot E B C A
foot F C A B
online P A B
translate P1 E F P
inter Q P P1 A C
translate Q1 A B Q
inter R Q Q1 B C
translate R1 F D R
inter S R R1 B A
prove { concyclic P Q R S }
