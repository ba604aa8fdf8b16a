% The feet of a point P on the sides of a triangle make a triangle whose area is (R^2 - OP^2) / 4 R^2 of the whole
% (19th century): O is the circumcenter, R the radius.
point O
point A
oncircle B O A
oncircle C O A
point P
foot X P B C
foot Y P C A
foot Z P A B
prove { equal { mult { mult { 4 } { pythagoras_difference3 O A O } } { signed_area3 X Y Z } }
              { mult { sub { pythagoras_difference3 O A O } { pythagoras_difference3 O P O } }
                     { signed_area3 A B C } } }
