% Each corner of a parallelogram is joined with the midpoint of the next side but one; the four lines make a
% parallelogram of one fifth of the area (classical).
point A
point B
point D
translate C A B D
midpoint K A B
midpoint L B C
midpoint M C D
midpoint N D A
inter X A L B M
inter Y B M C N
inter Z C N D K
prove { equal { mult { 5 } { signed_area3 X Y Z } } { signed_area3 A B C } }
