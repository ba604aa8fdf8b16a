% The distance of circumcenter and centroid (Leonhard Euler, 18th century): 9 OG^2 = 9 R^2 - a^2 - b^2 - c^2.
point A
point B
point C
circumcenter O A B C
centroid G A B C
prove { equal { mult { 9 } { pythagoras_difference3 O G O } }
              { sub { mult { 9 } { pythagoras_difference3 O A O } }
                    { sum { sum { pythagoras_difference3 A B A } { pythagoras_difference3 B C B } }
                          { pythagoras_difference3 C A C } } } }
