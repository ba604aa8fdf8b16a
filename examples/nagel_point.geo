% The Nagel point (Christian Heinrich von Nagel, 1836): the lines from the corners of a triangle to the points where
% the excircles touch the opposite sides meet in one point. With x, y, z for the tangents from A, B, C to the
% incircle, the excircle beside BC touches it at the distance z from B.
point A
point B
point C
param x
param y
param z
lratio D B C div { z } { sum { y } { z } }
lratio E C A div { x } { sum { z } { x } }
lratio F A B div { y } { sum { x } { y } }
inter N A D B E
prove { collinear C F N }
