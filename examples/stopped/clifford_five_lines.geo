% Clifford's theorem on five lines (Auguste Miquel, 1838; William Kingdon Clifford, 1871): the Miquel points of four
% of five lines each are on one circle. The lines are the sides of the triangle ABC, DE and GH; K, L, M and N are four
% of the Miquel points, each a common point of two circles of three lines.
point A
point B
point C
online D A B
online E B C
online G A B
online H B C
inter D1 D E C A
inter G1 G H C A
circumcenter O A B C
circumcenter P B D E
circumcenter Q B G H
circumcenter R A D D1
circumcenter S A G G1
cc K O P B
cc L O Q B
cc M P Q B
cc N R S A
prove { concyclic K L M N }
