% The foot K of the perpendicular from C to the bisector from B is on the line EF between the points of the incircle
% on CA and AB (classical). The figure begins with the incircle.
point I
point D
oncircle E I D
oncircle F I D
tratio D1 D I 1
tratio E1 E I 1
tratio F1 F I 1
inter B F F1 D D1
inter C D D1 E E1
foot K C B I
prove { collinear E F K }
