% A circle meets a rectangular hyperbola in four points whose numbers have the product 1 (19th century): A, B, C with
% the numbers a, b, c and D with 1/abc are on one circle. The points are t OE + 1/t OF for a square OE, OF.
point O
point E
tratio F O E 1
param a
param b
param c
lratio U O E a
pratio A U O F div { 1 } { a }
lratio V O E b
pratio B V O F div { 1 } { b }
lratio W O E c
pratio C W O F div { 1 } { c }
lratio X O E div { 1 } { mult { a } { mult { b } { c } } }
pratio D X O F mult { a } { mult { b } { c } }
prove { concyclic A B C D }
