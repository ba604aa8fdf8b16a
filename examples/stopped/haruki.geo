% Haruki's lemma (Hiroshi Haruki, 20th century): A, B, C, D are on a circle. For each point P of the circle the lines
% PC and PD cut AB at X and Y so that AX YB / XY is the same number. Here for two points, P and Q.
point O
point A
oncircle B O A
oncircle C O A
oncircle D O A
oncircle P O A
oncircle Q O A
inter X A B P C
inter Y A B P D
inter U A B Q C
inter V A B Q D
prove { equal { mult { mult { sratio A X A B } { sratio Y B A B } } { sratio U V A B } }
              { mult { mult { sratio A U A B } { sratio V B A B } } { sratio X Y A B } } }
