% The line from the centre of an ellipse to the intersection R of two tangents halves the chord between the points of
% contact A and B (Apollonius of Perga, Conics II.29 and II.30). A point of the ellipse is c OE + s OF with c =
% (1-t^2)/(1+t^2) and s = 2t/(1+t^2); the tangent there has the direction of -s OE + c OF.
point O
point E
point F
param t
lratio U O E div { sub { 1 } { mult { t } { t } } } { sum { 1 } { mult { t } { t } } }
pratio A U O F div { mult { 2 } { t } } { sum { 1 } { mult { t } { t } } }
lratio V O E div { mult { -2 } { t } } { sum { 1 } { mult { t } { t } } }
pratio A1 V O F div { sub { 1 } { mult { t } { t } } } { sum { 1 } { mult { t } { t } } }
translate A2 O A1 A
param s
lratio W O E div { sub { 1 } { mult { s } { s } } } { sum { 1 } { mult { s } { s } } }
pratio B W O F div { mult { 2 } { s } } { sum { 1 } { mult { s } { s } } }
lratio X O E div { mult { -2 } { s } } { sum { 1 } { mult { s } { s } } }
pratio B1 X O F div { sub { 1 } { mult { s } { s } } } { sum { 1 } { mult { s } { s } } }
translate B2 O B1 B
inter R A A2 B B2
midpoint M A B
prove { collinear O M R }
