% The power of a point (Euclid, Elements III.35 and III.36): two lines through P meet a circle in A, B and in C, D;
% then PA times PB is PC times PD. The products are written as Pythagoras differences.
point O
point A
point P
second B A P O
oncircle C O A
second D C P O
prove { equal { pythagoras_difference3 A P B } { pythagoras_difference3 C P D } }
