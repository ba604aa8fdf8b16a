% A segment AB is halved at M and cut at D: the rectangle of AD and DB with the square on MD is the square on half of
% the segment (Euclid, Elements II.5).
point A
point B
midpoint M A B
online D A B
prove { equal { mult { 4 } { sub { pythagoras_difference3 M D M } { pythagoras_difference3 A D B } } }
              { pythagoras_difference3 A B A } }
