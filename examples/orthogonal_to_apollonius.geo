% Each circle through A and B cuts each circle of Apollonius of A and B at right angles (classical): the squares of
% the radii add up to the square of the distance of the centres. C and D divide AB inside and outside in one ratio; M
% is the centre of the circle of Apollonius, O that of a circle through A and B.
point A
point B
param r
lratio C A B div { r } { sum { r } { 1 } }
lratio D A B div { r } { sub { r } { 1 } }
midpoint M C D
midpoint N A B
param s
tratio O N A s
prove { equal { pythagoras_difference3 M O M }
              { sum { pythagoras_difference3 M C M } { pythagoras_difference3 O A O } } }
