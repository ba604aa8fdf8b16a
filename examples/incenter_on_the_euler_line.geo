% The incenter is on the Euler line of isosceles triangles alone. False. The figure begins with the incircle and its
% points D, E, F on the sides, where the tangents meet at A, B and C. The circumcenter is on the line of I and the
% orthocenter H of DEF; so here the centroid G is asked for. Counterexample: the right triangle A = (-15, -5), B = (5,
% -5), C = (5, 10) with the incenter I = (0, 0): G = (-5/3, 0) and H = (2, -1).
point I
point D
oncircle E I D
oncircle F I D
midpoint K E F
midpoint L F D
midpoint M D E
inverse A K I D
inverse B L I D
inverse C M I D
centroid G A B C
translate H0 I D E
translate H I H0 F
prove { collinear I H G }
