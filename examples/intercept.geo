% The intercept theorem (Euclid, Elements VI.2; named after Thales): a parallel to one side of a triangle cuts the
% other two in the same ratio.
point A
point B
point C
online D A B
pratio T D B C 1 % DT is parallel to BC
inter E A C D T
prove { equal { sratio A D D B } { sratio A E E C } }
