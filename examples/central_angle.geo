% The angle at the centre over a chord AB is twice that at a point C of the circle (Euclid, Elements III.20). The
% tangent of the doubled angle is 2 t / (1 - t^2), and the tangent of an angle at a corner is four areas over a
% Pythagoras difference.
point O
point A
oncircle B O A
oncircle C O A
prove { equal { mult { signed_area3 O A B }
                     { sub { mult { pythagoras_difference3 A C B } { pythagoras_difference3 A C B } }
                           { mult { 16 } { mult { signed_area3 C A B } { signed_area3 C A B } } } } }
              { mult { mult { mult { 2 } { signed_area3 C A B } } { pythagoras_difference3 A C B } }
                     { pythagoras_difference3 A O B } } }
