% The foot Y of a focus G on a tangent of an ellipse is on the circle over the major axis (Apollonius of Perga, Conics
% III.50). The half-axes are OE and OF = 2m / (1+m^2) OE, so that OG = (1-m^2) / (1+m^2) OE. A point X of the ellipse
% is c OE + s OF with c = (1-t^2)/(1+t^2) and s = 2t/(1+t^2); the tangent XT there has the direction of -s OE + c OF.
point O
point E
param m
param t
tratio F O E div { mult { 2 } { m } } { sum { 1 } { mult { m } { m } } }
lratio G O E div { sub { 1 } { mult { m } { m } } } { sum { 1 } { mult { m } { m } } }
lratio U O E div { sub { 1 } { mult { t } { t } } } { sum { 1 } { mult { t } { t } } }
pratio X U O F div { mult { 2 } { t } } { sum { 1 } { mult { t } { t } } }
lratio V O E div { mult { -2 } { t } } { sum { 1 } { mult { t } { t } } }
pratio X1 V O F div { sub { 1 } { mult { t } { t } } } { sum { 1 } { mult { t } { t } } }
translate T O X1 X
foot Y G X T
prove { same_length O Y O E }
