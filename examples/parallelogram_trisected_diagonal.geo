% The lines from one corner of a parallelogram to the midpoints of the two opposite sides cut the diagonal into three
% equal parts (classical).
point A
point B
point D
line e A B
line f A D
parallel g D e
parallel h B f
intersec C g h
midpoint M B C
inter X A M B D
prove { equal { mult { 3 } { sratio B X B D } } { 1 } }
