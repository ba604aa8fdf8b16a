% The nine-point circle of a triangle whose corners are on a rectangular hyperbola passes through its centre O
% (Brianchon and Poncelet, 1821): O is on one circle with the midpoints of the sides.
point O
point E
tratio F O E 1
param a
param b
param c
lratio U O E a
pratio A U O F div { 1 } { a }
lratio V O E b
pratio B V O F div { 1 } { b }
lratio W O E c
pratio C W O F div { 1 } { c }
midpoint K B C
midpoint L C A
midpoint M A B
prove { concyclic K L M O }
