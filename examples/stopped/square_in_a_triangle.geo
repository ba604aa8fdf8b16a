% The square that stands on the side BC of a triangle with its other corners on AB and AC is found from the square on
% BC (George Polya, 1945): the lines from A to its far corners D and E meet BC at X and Y; the point of AB above X is
% a corner of the square on XY.
point A
point B
point C
tratio D B C -1
translate E B C D
inter X B C A D
inter Y B C A E
translate U B D X
inter X1 A B X U
tratio Z X Y -1
prove { identical X1 Z }
