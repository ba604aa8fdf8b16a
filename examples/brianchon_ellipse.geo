% Brianchon's theorem (Charles Julien Brianchon, 1806) for an ellipse or a circle: the three diagonals of a hexagon of
% tangents meet in one point. A point of the ellipse is (1-t^2)/(1+t^2) OE + 2t/(1+t^2) OF; the tangents of the points
% with the numbers s and t meet at (1-st)/(1+st) OE + (s+t)/(1+st) OF. The first tangent is that of E, with the number
% 0.
point O
point E
point F
param q
param r
param s
param t
param u
pratio A E O F q
lratio B0 O E div { sub { 1 } { mult { q } { r } } } { sum { 1 } { mult { q } { r } } }
pratio B B0 O F div { sum { q } { r } } { sum { 1 } { mult { q } { r } } }
lratio C0 O E div { sub { 1 } { mult { r } { s } } } { sum { 1 } { mult { r } { s } } }
pratio C C0 O F div { sum { r } { s } } { sum { 1 } { mult { r } { s } } }
lratio D0 O E div { sub { 1 } { mult { s } { t } } } { sum { 1 } { mult { s } { t } } }
pratio D D0 O F div { sum { s } { t } } { sum { 1 } { mult { s } { t } } }
lratio K0 O E div { sub { 1 } { mult { t } { u } } } { sum { 1 } { mult { t } { u } } }
pratio K K0 O F div { sum { t } { u } } { sum { 1 } { mult { t } { u } } }
pratio L E O F u
inter X A D B K
prove { collinear C L X }
