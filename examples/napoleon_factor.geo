% Similar isosceles triangles stand on the sides of a triangle, with the height r times the side. Their tops P, Q, R
% make an equilateral triangle where 12 r^2 = 1 (Napoleon's theorem; Rutherford, 1825), which no rational number does.
% Here for any r: 4 (PQ^2 - PR^2) = (1 - 12 r^2) (AB^2 - AC^2).
point A
point B
point C
param r
midpoint K B C
midpoint L C A
midpoint M A B
tratio P K C mult { 2 } { r }
tratio Q L A mult { 2 } { r }
tratio R M B mult { 2 } { r }
prove { equal { mult { 4 } { sub { pythagoras_difference3 P Q P } { pythagoras_difference3 P R P } } }
              { mult { sub { 1 } { mult { mult { 12 } { r } } { r } } }
                     { sub { pythagoras_difference3 A B A } { pythagoras_difference3 A C A } } } }
