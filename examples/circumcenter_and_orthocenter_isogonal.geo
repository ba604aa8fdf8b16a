% Circumcenter O and orthocenter H of a triangle are isogonal conjugates (classical): the angles BAO and HAC are
% equal.
point A
point B
point C
circumcenter O A B C
orthocenter H A B C
prove { equal { mult { signed_area3 B A O } { pythagoras_difference3 H A C } }
              { mult { signed_area3 H A C } { pythagoras_difference3 B A O } } }
