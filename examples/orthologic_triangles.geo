% Orthologic triangles (Jakob Steiner, 1827): where the perpendiculars from the corners of DEF to the sides of ABC
% meet in one point P, those from the corners of ABC to the sides of DEF meet in one point too. The figure begins with
% DEF and P.
point P
point D
point E
point F
point C
tratio X P D 1 % CB is perpendicular to PD
translate X1 P X C
online B C X1
tratio Y P E 1 % CA is perpendicular to PE
translate Y1 P Y C
tratio Z P F 1 % AB is perpendicular to PF
translate Z1 P Z B
inter A C Y1 B Z1
tratio U E F 1
translate U1 E U A
tratio V F D 1
translate V1 F V B
inter Q A U1 B V1
prove { perpendicular C Q D E }
