% The Euler line of the triangle DEF of the points of the incircle on the sides passes through the circumcenter O of
% the triangle ABC (classical): O is on one line with the incenter I, which is the circumcenter of DEF, and with the
% orthocenter H of DEF, by vectors from I. The figure begins with the incircle.
point I
point D
oncircle E I D
oncircle F I D
midpoint K E F
midpoint L F D
midpoint M D E
inverse A K I D
inverse B L I D
inverse C M I D
translate H0 I D E
translate H I H0 F
circumcenter O A B C
prove { collinear I O H }
