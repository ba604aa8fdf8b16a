% Two lines that meet on the circumcircle (International Mathematical Olympiad 2014, problem 4): P and Q are points of
% the side BC of a triangle so that the angle PAB is equal to that at C, and CAQ to that at B. P is the midpoint of
% AM, and Q that of AN. The lines BM and CN meet on the circumcircle. By similar triangles BP BC = BA^2 and CQ CB =
% CA^2.
point A
point B
point C
lratio P B C div { pythagoras_difference3 B A B } { pythagoras_difference3 B C B }
lratio Q C B div { pythagoras_difference3 C A C } { pythagoras_difference3 B C B }
symmetric M A P
symmetric N A Q
inter X B M C N
prove { concyclic A B C X }
