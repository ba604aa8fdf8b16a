% Three parallels through the incenter (Balkan Mathematical Olympiad 2015, problem 2): the bisectors of a triangle ABC
% meet its circumcircle again at D, E and F. The parallels to BC, CA and AB through the incenter I meet EF, FD and DE
% at three points of one line. The figure begins with the circle and D, E, F: I is the orthocenter of this triangle,
% by vectors from the centre O, and BC is perpendicular to OD.
point O
point D
oncircle E O D
oncircle F O D
translate K O D E
translate I O F K
line d O D
line e O E
line f O F
perp u I d
perp v I e
perp w I f
line a E F
line b F D
line c D E
intersec X u a
intersec Y v b
intersec Z w c
prove { collinear X Y Z }
