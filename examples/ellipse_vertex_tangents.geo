% A tangent of an ellipse cuts off EP and DQ from the tangents at the ends E and D of a diameter; their product is the
% square of the conjugate half-diameter OF (Apollonius of Perga, Conics III.42). A point X of the ellipse is c OE + s
% OF with c = (1-t^2)/(1+t^2) and s = 2t/(1+t^2); the tangent XT there has the direction of -s OE + c OF.
point O
point E
point F
param t
lratio U O E div { sub { 1 } { mult { t } { t } } } { sum { 1 } { mult { t } { t } } }
pratio X U O F div { mult { 2 } { t } } { sum { 1 } { mult { t } { t } } }
lratio V O E div { mult { -2 } { t } } { sum { 1 } { mult { t } { t } } }
pratio X1 V O F div { sub { 1 } { mult { t } { t } } } { sum { 1 } { mult { t } { t } } }
translate T O X1 X
symmetric D E O
translate E1 O F E
translate D1 O F D
inter P X T E E1
inter Q X T D D1
prove { equal { mult { sratio E P O F } { sratio D Q O F } } { 1 } }
