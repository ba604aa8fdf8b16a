% The line through two incenters (a step of the International Mathematical Olympiad 1988, problem 5): in a right
% triangle ABC with the altitude AD the line through the incenters of ABD and ACD meets AB at K and AC at L; then AK =
% AL = AD. Here K and L are laid off at the distance AD: the line KL meets the bisector of the right angle ADB in a
% point I of the bisector of the angle at B. AB is 2t, AC is 1 - t^2 and BC is 1 + t^2, with the unit AU.
point A
point U
param t
lratio B A U mult { 2 } { t }
tratio C A U sub { 1 } { mult { t } { t } }
foot D A B C
lratio K A U div { mult { mult { 2 } { t } } { sub { 1 } { mult { t } { t } } } } { sum { 1 } { mult { t } { t } } }
tratio L A U div { mult { mult { 2 } { t } } { sub { 1 } { mult { t } { t } } } } { sum { 1 } { mult { t } { t } } }
tratio T D B -1
midpoint M B T
inter I K L D M
prove { equal { mult { signed_area3 A B I } { pythagoras_difference3 I B D } }
              { mult { signed_area3 I B D } { pythagoras_difference3 A B I } } }
