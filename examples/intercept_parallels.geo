% The second intercept theorem (Euclid, Elements VI.4): a parallel to the side BC of a triangle meets AB at D and AC
% at E. The parallels DE and BC are in the ratio of AD to AB.
point A
point B
point C
online D A B
pratio T D B C 1
inter E D T A C
prove { equal { sratio D E B C } { sratio A D A B } }
