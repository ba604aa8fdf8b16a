% proved: C and D divide AB inside and outside in the same ratio r
point A
point B
param r
lratio C A B div { r } { sum { r } { 1 } }
lratio D A B div { r } { sub { r } { 1 } }
prove { harmonic A B C D }
