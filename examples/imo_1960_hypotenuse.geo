% The middle part of a hypotenuse (International Mathematical Olympiad 1960, problem 3): the hypotenuse BC, of the
% length a, of a right triangle is cut into n equal parts; PQ is the one in the middle. With the altitude h the angle
% PAQ has the tangent 4nh / ((n^2 - 1) a), here for each number n: PQ is a/n, with the midpoint of BC as its midpoint.
% The area of ABC is ah/2.
point A
point B
param r
tratio C A B r
param n
lratio P B C div { sub { n } { 1 } } { mult { 2 } { n } }
lratio Q B C div { sum { n } { 1 } } { mult { 2 } { n } }
prove { equal { div { mult { mult { mult { 4 } { signed_area3 P A Q } } { sub { mult { n } { n } } { 1 } } }
                           { pythagoras_difference3 B C B } }
                    { 2 } }
              { mult { mult { mult { mult { pythagoras_difference3 P A Q } { 4 } } { n } } { 2 } }
                     { signed_area3 B A C } } }
