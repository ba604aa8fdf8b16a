% The converse of Desargues' theorem (Girard Desargues, 1648): where corresponding sides of two triangles meet in
% three points X, Y, Z of one line, the lines that join corresponding corners meet in one point.
point A
point B
point C
point A1
online X B C
online Y C A
inter Z A B X Y
online B1 A1 Z
inter C1 B1 X A1 Y
inter S A A1 B B1
prove { collinear C C1 S }
