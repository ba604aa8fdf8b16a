% Jacobi's theorem (Carl Friedrich Andreas Jacobi, 1825): from each corner of a triangle two lines are drawn at equal
% angles with its two sides; neighbouring lines meet at X, Y and Z. The lines AX, BY and CZ meet in one point. The
% tangents of the three angles are u, v and w.
point A
point B
point C
param u
param v
param w
tratio B1 B C v
tratio B2 B A neg { v }
tratio C1 C B neg { w }
tratio C2 C A w
tratio A1 A B u
tratio A2 A C neg { u }
translate BX B C B1
translate CX C B C1
translate BZ B A B2
translate AZ A B A1
translate AY A C A2
translate CY C A C2
inter X B BX C CX
inter Y C CY A AY
inter Z A AZ B BZ
inter W A X B Y
prove { collinear C Z W }
