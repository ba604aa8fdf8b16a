% The first Brocard triangle XYZ has the tops of the isosceles triangles that stand inside on the sides with the
% Brocard angle at the base. It is similar to ABC, in the other sense of turning (Henri Brocard, 1881): the angle YXZ
% is the opposite of BAC. D is the foot of the altitude from A, DA and DC are a and c times DB; the Brocard angle has
% the tangent a(1-c) / (1+a^2+c^2-c).
point D
point B
param a
param c
tratio A D B a
lratio C D B c
midpoint K B C
midpoint L C A
midpoint M A B
tratio X K C div { mult { a } { sub { c } { 1 } } }
                 { sub { sum { 1 } { sum { mult { a } { a } } { mult { c } { c } } } } { c } }
tratio Y L A div { mult { a } { sub { c } { 1 } } }
                 { sub { sum { 1 } { sum { mult { a } { a } } { mult { c } { c } } } } { c } }
tratio Z M B div { mult { a } { sub { c } { 1 } } }
                 { sub { sum { 1 } { sum { mult { a } { a } } { mult { c } { c } } } } { c } }
prove { equal { mult { signed_area3 Y X Z } { pythagoras_difference3 B A C } }
              { mult { neg { signed_area3 B A C } } { pythagoras_difference3 Y X Z } } }
