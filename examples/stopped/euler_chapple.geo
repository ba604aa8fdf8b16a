% OI^2 = R^2 - 2 R r (William Chapple, 1746; Leonhard Euler, 1765), here squared: (R^2 - OI^2)^2 = 4 R^2 r^2. The
% figure begins with the incircle.
point I
point D
oncircle E I D
oncircle F I D
midpoint K E F
midpoint L F D
midpoint M D E
inverse A K I D
inverse B L I D
inverse C M I D
circumcenter O A B C
prove { equal { mult { sub { pythagoras_difference3 O A O } { pythagoras_difference3 O I O } }
                     { sub { pythagoras_difference3 O A O } { pythagoras_difference3 O I O } } }
              { mult { mult { 4 } { pythagoras_difference3 O A O } } { pythagoras_difference3 I D I } } }
