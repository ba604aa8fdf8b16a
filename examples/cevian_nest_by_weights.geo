% Three lines from the corners of ABC through one point have the feet D, E, F, with the weights u, v, w. The point Q has
% the weights p, k, r in DEF, and its three lines there have the feet X, Y, Z. Then AX, BY and CZ meet in one point
% (the cevian nest theorem; classical).
point A
point B
point C
param u
param v
param w
lratio D B C div { w } { sum { v } { w } }
lratio E C A div { u } { sum { u } { w } }
lratio F A B div { v } { sum { u } { v } }
param p
param k
param r
weights Q D E F div { k } { sum { p } { sum { k } { r } } } div { r } { sum { p } { sum { k } { r } } }
inter X E F D Q
inter Y F D E Q
inter Z D E F Q
inter S A X B Y
prove { collinear C Z S }
