% The circle of Apollonius (Apollonius of Perga): C and D divide AB inside and outside in the ratio r. Each point X of
% the circle with diameter CD has r times the distance from B as its distance from A.
point A
point B
param r
lratio C A B div { r } { sum { r } { 1 } }
lratio D A B div { r } { sub { r } { 1 } }
midpoint M C D
oncircle X M C
prove { equal { pythagoras_difference3 A X A } { mult { mult { r } { r } } { pythagoras_difference3 B X B } } }
