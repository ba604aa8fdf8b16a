% The line through two incenters (a step of the International Mathematical Olympiad 1988, problem 5): in a right
% triangle ABC with the altitude AD the points K of AB and L of AC are as far from A as D. They are on the line
% through the incenters of ABD and ACD: here the incenter I of ABD is on KL. AB is 2t, AC is 1 - t^2 and BC is 1 +
% t^2, with the unit AU; W is the point of BC with BW = BA.
point A
point U
param t
lratio B A U mult { 2 } { t }
tratio C A U sub { 1 } { mult { t } { t } }
lratio D B C div { mult { mult { 4 } { t } } { t } }
                 { mult { sum { 1 } { mult { t } { t } } } { sum { 1 } { mult { t } { t } } } }
lratio K A U div { mult { mult { 2 } { t } } { sub { 1 } { mult { t } { t } } } } { sum { 1 } { mult { t } { t } } }
tratio L A U div { mult { mult { 2 } { t } } { sub { 1 } { mult { t } { t } } } } { sum { 1 } { mult { t } { t } } }
tratio T D B -1
midpoint M B T
lratio W B C div { mult { 2 } { t } } { sum { 1 } { mult { t } { t } } }
midpoint N A W
inter I B N D M
prove { collinear K L I }
