% Hoehn's theorem (Larry Hoehn, 1993): the diagonals of a pentagon ABCDE cut one another at five points, and each
% diagonal has two outer parts; the ratios of the outer parts have the product 1. The parts are taken over the whole
% diagonal; D and E are given over the triangle ABC by the numbers a, b and c, d.
point A
point B
point C
param a
param b
param c
param d
lratio D0 A B a
pratio D D0 A C b
lratio E0 A B c
pratio E E0 A C d
inter P A C B E
inter Q A C B D
inter R B D C E
inter T C E D A
inter U D A E B
prove { equal { mult { mult { mult { mult { sratio A P A C } { sratio B Q B D } } { sratio C R C E } }
                            { sratio D T D A } }
                     { sratio E U E B } }
              { mult { mult { mult { mult { sratio Q C A C } { sratio R D B D } } { sratio T E C E } }
                            { sratio U A D A } }
                     { sratio P B E B } } }
