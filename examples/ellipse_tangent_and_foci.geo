% The tangent of an ellipse makes equal angles with the lines to its foci G and H (Apollonius of Perga, Conics
% III.48). The half-axes are OE and OF = 2m / (1+m^2) OE, so that OG = (1-m^2) / (1+m^2) OE. A point X of the ellipse
% is c OE + s OF with c = (1-t^2)/(1+t^2) and s = 2t/(1+t^2); the tangent XT there has the direction of -s OE + c OF.
point O
point E
param m
param t
tratio F O E div { mult { 2 } { m } } { sum { 1 } { mult { m } { m } } }
lratio G O E div { sub { 1 } { mult { m } { m } } } { sum { 1 } { mult { m } { m } } }
symmetric H G O
lratio U O E div { sub { 1 } { mult { t } { t } } } { sum { 1 } { mult { t } { t } } }
pratio X U O F div { mult { 2 } { t } } { sum { 1 } { mult { t } { t } } }
lratio V O E div { mult { -2 } { t } } { sum { 1 } { mult { t } { t } } }
pratio X1 V O F div { sub { 1 } { mult { t } { t } } } { sum { 1 } { mult { t } { t } } }
translate T O X1 X
prove { equal { mult { signed_area3 G X T } { pythagoras_difference3 H X T } }
              { mult { neg { signed_area3 H X T } } { pythagoras_difference3 G X T } } }
