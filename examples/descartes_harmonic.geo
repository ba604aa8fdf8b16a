% Descartes' relation of harmonic points (Rene Descartes, 17th century): where C and D divide AB harmonically, 2/AB =
% 1/AC + 1/AD, with signs, so that AB is the harmonic mean of AC and AD. C is at r times the way from A to B.
point A
point B
param r
lratio C A B r
lratio D A B div { r } { sub { mult { 2 } { r } } { 1 } }
prove { equal { sum { sratio A B A C } { sratio A B A D } } { 2 } }
