% Two homotheties with the ratios r and 1/r make a translation along the line of their centres (classical).
point A
point B
point P
param r
lratio Q A P r
lratio R B Q div { 1 } { r }
prove { parallel P R A B }
