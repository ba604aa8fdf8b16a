% The tangents of a hyperbola make triangles of one area with the asymptotes (Apollonius of Perga, Conics III.43). A
% point A of the hyperbola is t OE + 1/t OF; the tangent there meets the asymptotes OE and OF at X = 2t OE and at Y.
% The area is four times that of OEF.
point O
point E
point F
param t
lratio U O E t
pratio A U O F div { 1 } { t }
lratio X O E mult { 2 } { t }
inter Y A X O F
prove { equal { signed_area3 O X Y } { mult { 4 } { signed_area3 O E F } } }
