% A pair of isotomic points has reciprocal weights, u, v, w and 1/u, 1/v, 1/w (19th century); here the latter are
% multiplied by uvw. The lines from a corner through the two cut the opposite side at equal distances from its midpoint.
point A
point B
point C
assume not_collinear A B C
param u
param v
param w
weights P A B C div { v } { sum { u } { sum { v } { w } } }
                div { w } { sum { u } { sum { v } { w } } }
weights Q A B C div { mult { w } { u } } { sum { mult { v } { w } } { sum { mult { w } { u } } { mult { u } { v } } } }
                div { mult { u } { v } } { sum { mult { v } { w } } { sum { mult { w } { u } } { mult { u } { v } } } }
inter D B C A P
inter X B C A Q
midpoint M B C
prove { midpoint M D X }
