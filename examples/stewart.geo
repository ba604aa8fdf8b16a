% Stewart's theorem (Matthew Stewart, 1746): D divides BC, with BD = r BC. Then
% AD^2 = (1 - r) AB^2 + r AC^2 - r (1 - r) BC^2.
point A
point B
point C
param r
lratio D B C r
prove { equal { pythagoras_difference3 A D A }
              { sub { sum { mult { sub { 1 } { r } } { pythagoras_difference3 A B A } }
                          { mult { r } { pythagoras_difference3 A C A } } }
                    { mult { mult { r } { sub { 1 } { r } } } { pythagoras_difference3 B C B } } } }
