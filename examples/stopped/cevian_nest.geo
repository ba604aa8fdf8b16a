% DEF are the feet of lines through one point P of the triangle ABC, and X, Y, Z those of lines through one point Q of
% DEF. Then AX, BY and CZ meet in one point (classical).
point A
point B
point C
point P
point Q
inter D A P B C
inter E B P C A
inter F C P A B
inter X D Q E F
inter Y E Q F D
inter Z F Q D E
inter S A X B Y
prove { collinear C Z S }
