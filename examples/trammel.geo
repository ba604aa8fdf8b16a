% The trammel (Proclus, 5th century): where the ends X and Y of a segment of a given length move on two perpendicular
% lines, each point P of it moves on an ellipse. The segment is as long as OE, and XP is k times as long; then OA^2 /
% (1-k)^2 + AP^2 / k^2 = OE^2 for the foot A of P on OE.
point O
point E
param t
param k
lratio X O E div { sub { 1 } { mult { t } { t } } } { sum { 1 } { mult { t } { t } } }
tratio Y O E div { mult { 2 } { t } } { sum { 1 } { mult { t } { t } } }
lratio P X Y k
foot A P O E
prove { equal { sum { div { pythagoras_difference3 O A O } { mult { sub { 1 } { k } } { sub { 1 } { k } } } }
                    { div { pythagoras_difference3 A P A } { mult { k } { k } } } }
              { pythagoras_difference3 O E O } }
