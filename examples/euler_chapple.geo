% The power of the incenter is R^2 - OI^2 = 2 R r (William Chapple, 1746; Leonhard Euler, 1765). Inversion in the
% incircle takes the circumcircle to the nine-point circle of the triangle DEF of its points on the sides, with the
% centre N and the radius r/2; so O is on IN, with OI = IN r^2 / (IN^2 - r^2/4), and R^2 - OI^2 = r^4 / (r^2/4 -
% IN^2). Here the last equation, for R = OA.
point I
point D
oncircle E I D
oncircle F I D
translate K I D E
translate H I K F
midpoint N I H
lratio O I N div { pythagoras_difference3 I D I }
                 { sub { pythagoras_difference3 I N I } { div { pythagoras_difference3 I D I } { 4 } } }
midpoint M E F
inverse A M I D
prove { equal { sub { pythagoras_difference3 O A O } { pythagoras_difference3 O I O } }
              { div { mult { pythagoras_difference3 I D I } { pythagoras_difference3 I D I } }
                    { sub { div { pythagoras_difference3 I D I } { 4 } } { pythagoras_difference3 I N I } } } }
