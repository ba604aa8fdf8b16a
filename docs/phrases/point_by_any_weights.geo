% proved: the line AX divides BC as w to v
point A
point B
point C
param u
param v
param w
weights X A B C div { v } { sum { u } { sum { v } { w } } } div { w } { sum { u } { sum { v } { w } } }
lratio D B C div { w } { sum { v } { w } }
prove { collinear A X D }
