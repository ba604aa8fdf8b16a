% The symmedian is the reflection of the median in the bisector (Emile Lemoine, 1873): T is the pole of the chord BC
% of a circle, M the midpoint of BC, and A a point of the circle. The angles BAM and TAC are equal.
point B
point C
midpoint M B C
param r
tratio T M B r
tratio O M B div { -1 } { r } % BO is perpendicular to BT
oncircle A O B
prove { equal { mult { signed_area3 B A M } { pythagoras_difference3 T A C } }
              { mult { signed_area3 T A C } { pythagoras_difference3 B A M } } }
