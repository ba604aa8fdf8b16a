% Three lines from the corners of ABC through one point have the feet D, E, F, with the weights u, v, w; X, Y, Z are
% such feet on the sides of DEF, with the weights p, k, r. Then AX, BY and CZ meet in one point (the cevian nest
% theorem; classical).
point A
point B
point C
param u
param v
param w
lratio D B C div { w } { sum { v } { w } }
lratio E C A div { u } { sum { u } { w } }
lratio F A B div { v } { sum { u } { v } }
param p
param k
param r
lratio X E F div { r } { sum { k } { r } }
lratio Y F D div { p } { sum { p } { r } }
lratio Z D E div { k } { sum { p } { k } }
inter S A X B Y
prove { collinear C Z S }
