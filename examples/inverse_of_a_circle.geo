% Inversion takes a circle that does not pass through the centre to a circle (19th century). Its centre N is on the
% line from the centre of inversion O to that of the circle, M, with ON = OM r^2 / (OM^2 - MA^2): all images have the
% same distance from N.
point O
point R
point M
point A
oncircle B M A
lratio N O M div { pythagoras_difference3 O R O }
                 { sub { pythagoras_difference3 O M O } { pythagoras_difference3 M A M } }
inverse A1 A O R
inverse B1 B O R
prove { same_length N A1 N B1 }
