% The radical axes of three circles meet in one point (classical). The circles around M and N cut the
% circle around O in A, B and in C, D. The point X where AB and CD meet has the same power for M and N.
point O
point X
point A
second B A X O
oncircle C O A
second D C X O
midpoint U A B
param r
tratio M U A r
midpoint V C D
param s
tratio N V C s
prove { equal { sub { pythagoras_difference3 X M X } { pythagoras_difference3 A M A } }
              { sub { pythagoras_difference3 X N X } { pythagoras_difference3 C N C } } }
