% Desargues' theorem (Girard Desargues, 17th century): where the lines that join the corners of two triangles meet
% in one point S, the three intersections of corresponding sides are on one line.
point S
point A
point B
point C
online A1 S A
online B1 S B
online C1 S C
inter X B C B1 C1
inter Y C A C1 A1
inter Z A B A1 B1
prove { collinear X Y Z }
