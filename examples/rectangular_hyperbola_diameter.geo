% A chord AB of a rectangular hyperbola is seen from the ends P and Q of a diameter under angles with opposite
% tangents (19th century). The points of the hyperbola are t OE + 1/t OF for a square OE, OF.
point O
point E
tratio F O E 1
param a
param b
param c
lratio U O E a
pratio A U O F div { 1 } { a }
lratio V O E b
pratio B V O F div { 1 } { b }
lratio W O E c
pratio P W O F div { 1 } { c }
symmetric Q P O
prove { equal { mult { signed_area3 A P B } { pythagoras_difference3 A Q B } }
              { mult { neg { signed_area3 A Q B } } { pythagoras_difference3 A P B } } }
