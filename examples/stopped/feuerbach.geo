% Feuerbach's theorem (Karl Wilhelm Feuerbach, 1822): the nine-point circle touches the incircle. In squares: with the
% centres N and I and the radii n and r, (NI^2 - n^2 - r^2)^2 = 4 n^2 r^2. The figure begins with the incircle.
point I
point D
oncircle E I D
oncircle F I D
midpoint K E F
midpoint L F D
midpoint M D E
inverse A K I D
inverse B L I D
inverse C M I D
midpoint X B C
midpoint Y C A
midpoint Z A B
circumcenter N X Y Z
prove { equal { mult { sub { sub { pythagoras_difference3 N I N } { pythagoras_difference3 N X N } }
                           { pythagoras_difference3 I D I } }
                     { sub { sub { pythagoras_difference3 N I N } { pythagoras_difference3 N X N } }
                           { pythagoras_difference3 I D I } } }
              { mult { mult { 4 } { pythagoras_difference3 N X N } } { pythagoras_difference3 I D I } } }
