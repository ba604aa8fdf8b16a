% The radius of the circumcircle (classical): 16 R^2 S^2 = a^2 b^2 c^2. A Pythagoras difference here is twice a square.
point A
point B
point C
circumcenter O A B C
prove { equal { mult { 64 } { mult { mult { signed_area3 A B C } { signed_area3 A B C } }
                                     { pythagoras_difference3 O A O } } }
              { mult { mult { pythagoras_difference3 A B A } { pythagoras_difference3 B C B } }
                     { pythagoras_difference3 C A C } } }
