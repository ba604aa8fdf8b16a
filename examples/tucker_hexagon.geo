% Tucker's hexagon (Robert Tucker, 19th century): from a point P of AB go to the other sides of a triangle in turn,
% antiparallel to BC, parallel to AB, antiparallel to CA, parallel to BC, antiparallel to AB; the last step, back to
% P, is parallel to CA. Antiparallel to a side is the line of the feet of the two altitudes on the others.
point A
point B
point C
foot D A B C
foot E B C A
foot F C A B
online P A B
translate P1 E F P
inter Q P P1 A C
translate Q1 A B Q
inter R Q Q1 B C
translate R1 F D R
inter S R R1 B A
translate S1 B C S
inter T S S1 C A
translate T1 D E T
inter U T T1 C B
prove { parallel U P C A }
