% The tangent of a sum of angles (classical): for angles AOB and BOC with the tangents s and t the tangent of AOC is
% (s + t) / (1 - st). The tangent of an angle is four areas over a Pythagoras difference.
point O
point A
point B
point C
prove { equal { mult { mult { 4 } { signed_area3 O A C } }
                     { sub { mult { pythagoras_difference3 A O B } { pythagoras_difference3 B O C } }
                           { mult { mult { 16 } { signed_area3 O A B } } { signed_area3 O B C } } } }
              { mult { pythagoras_difference3 A O C }
                     { sum { mult { mult { 4 } { signed_area3 O A B } } { pythagoras_difference3 B O C } }
                           { mult { mult { 4 } { signed_area3 O B C } } { pythagoras_difference3 A O B } } } } }
