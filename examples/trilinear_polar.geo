% The trilinear polar (Jean-Victor Poncelet, 1822): the sides of the triangle of the feet of three lines through one
% point meet the sides of the triangle in three points of one line.
point A
point B
point C
point P
inter D A P B C
inter E B P C A
inter F C P A B
inter X E F B C
inter Y F D C A
inter Z D E A B
prove { collinear X Y Z }
