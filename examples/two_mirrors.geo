% Reflections in two lines OA and OB make a rotation about O through twice their angle (classical). The tangent of the
% doubled angle is 2 t / (1 - t^2), and the tangent of an angle is four areas over a Pythagoras difference.
point O
point A
point B
point P
reflect Q P O A
reflect R Q O B
prove { equal { mult { signed_area3 O P R }
                     { sub { mult { pythagoras_difference3 A O B } { pythagoras_difference3 A O B } }
                           { mult { 16 } { mult { signed_area3 O A B } { signed_area3 O A B } } } } }
              { mult { mult { mult { 2 } { signed_area3 O A B } } { pythagoras_difference3 A O B } }
                     { pythagoras_difference3 P O R } } }
