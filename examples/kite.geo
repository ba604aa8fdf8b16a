% Where AB = AD and CB = CD, the line AC halves the segment BD and is perpendicular to it (classical): D is the second
% common point of the circles around A and C through B. Here: any point of AC has the same distance from B and D.
point A
point C
point B
cc D A C B
online P A C
prove { same_length P B P D }
