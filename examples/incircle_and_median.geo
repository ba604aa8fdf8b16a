% The line EF between two points of the incircle, the line from the incenter I to the third point D, and the median
% from A meet in one point (classical).
point I
point D
oncircle E I D
oncircle F I D
tratio D1 D I 1
tratio E1 E I 1
tratio F1 F I 1
inter A E E1 F F1
inter B F F1 D D1
inter C D D1 E E1
inter X I D E F
midpoint M B C
prove { collinear A X M }
