% The square that stands on the side BC of a triangle with its other corners on AB and AC is found from the square
% BDEC on BC (George Polya, 1945): the lines from A to D and E meet BC at X and Y, two of its corners. The third one
% X1, on AB and on the perpendicular at X, makes the diagonal X1 Y parallel to BE.
point B
point C
point A
tratio D B C -1
translate E B C D
inter X B C A D
inter Y B C A E
translate U B D X
inter X1 A B X U
prove { parallel X1 Y B E }
