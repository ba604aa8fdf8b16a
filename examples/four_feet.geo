% The foot D of an altitude is projected onto the other two sides and onto the other two altitudes: the four points
% are on one line (classical). Here: those on the sides and on the altitude BE.
point D
point B
param r
tratio A D B r
online C D B
foot X D A B
foot Y D A C
foot E B C A
foot U D B E
prove { collinear X Y U }
