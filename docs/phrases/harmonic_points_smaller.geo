% proved: X divides BC outside in the ratio in which D divides it inside; then X is on the line EF
point B
point C
param r
lratio D B C r
lratio X B C div { r } { sub { mult { 2 } { r } } { 1 } }
point A
online P A D
inter E B P C A
inter F C P A B
prove { collinear E F X }
