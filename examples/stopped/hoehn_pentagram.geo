% Hoehn's theorem (Larry Hoehn, 1993): the diagonals of a pentagon ABCDE cut one another at five points, and each
% diagonal has two outer parts; the five ratios of the outer parts have the product 1.
point A
point B
point C
point D
point E
inter P A C B E
inter Q A C B D
inter R B D C E
inter T C E D A
inter U D A E B
prove { equal { mult { mult { mult { mult { sratio A P Q C } { sratio B Q R D } } { sratio C R T E } }
                            { sratio D T U A } }
                     { sratio E U P B } }
              { 1 } }
