% Heron's three lines (Heron of Alexandria, for a right angle at C, after an-Nairizi's commentary on Euclid, Elements
% I.47): squares stand outside on the sides CA and CB of a triangle. The lines from A and B to the far corners of the
% squares on CB and CA meet on the altitude from C.
point C
point A
point B
tratio K B C -1
tratio L A C 1
inter X A K B L
prove { perpendicular C X A B }
