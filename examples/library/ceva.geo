% Ceva's theorem (Giovanni Ceva, 1678): three lines through one point P from the corners of a triangle cut the sides in
% ratios whose product is 1.
point A
point B
point C
point P
inter D B C A P
inter E C A B P
inter F A B C P
prove { equal { mult { mult { sratio A F F B } { sratio B D D C } } { sratio C E E A } } { 1 } }
