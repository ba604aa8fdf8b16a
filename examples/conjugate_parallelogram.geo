% The parallelograms on two conjugate half-diameters of an ellipse all have the same area (Apollonius of Perga, Conics
% VII.31). A point of the ellipse is c OE + s OF with c = (1-t^2)/(1+t^2) and s = 2t/(1+t^2); the conjugate one is -s
% OE + c OF.
point O
point E
point F
param t
lratio U O E div { sub { 1 } { mult { t } { t } } } { sum { 1 } { mult { t } { t } } }
pratio A U O F div { mult { 2 } { t } } { sum { 1 } { mult { t } { t } } }
lratio V O E div { mult { -2 } { t } } { sum { 1 } { mult { t } { t } } }
pratio B V O F div { sub { 1 } { mult { t } { t } } } { sum { 1 } { mult { t } { t } } }
prove { equal { signed_area3 O A B } { signed_area3 O E F } }
