% The triangles HBC and HCA at the orthocenter are as the tangents of the angles at A and B (classical): as the
% reciprocals of b^2 + c^2 - a^2 and c^2 + a^2 - b^2.
point A
point B
point C
orthocenter H A B C
prove { equal { mult { signed_area3 H B C } { pythagoras_difference3 B A C } }
              { mult { signed_area3 H C A } { pythagoras_difference3 A B C } } }
