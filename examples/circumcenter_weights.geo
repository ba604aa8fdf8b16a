% The triangles OBC and OCA at the circumcenter are as a^2 (b^2 + c^2 - a^2) to b^2 (c^2 + a^2 - b^2) (classical).
point A
point B
point C
circumcenter O A B C
prove { equal { mult { mult { signed_area3 O B C } { pythagoras_difference3 C A C } } { pythagoras_difference3 A B C } }
              { mult { mult { signed_area3 O C A } { pythagoras_difference3 B C B } }
                     { pythagoras_difference3 B A C } } }
