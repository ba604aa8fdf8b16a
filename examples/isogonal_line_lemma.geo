% The lemma of isogonal lines (classical; known from competitions): where AP and AQ are reflections of one another in
% the bisector AU of the angle of AB and AC, BP and CQ meet at X, and BQ and CP at Y, AX and AY are so too: the angles
% XAU and UAY are equal. V and W are at equal distances from A on the lines AB and AC.
point A
point U
param r
tratio V U A r
symmetric W V U
param s
tratio S U A s
symmetric T S U
online B A V
online C A W
online P A S
online Q A T
inter X B P C Q
inter Y B Q C P
prove { equal { mult { signed_area3 X A U } { pythagoras_difference3 U A Y } }
              { mult { signed_area3 U A Y } { pythagoras_difference3 X A U } } }
